//! As much of the geometry crate as the original names.

pub mod math {
    #[derive(Clone, Copy)]
    pub struct Point3 {
        pub x: f64,
        pub y: f64,
        pub z: f64,
    }

    #[derive(Clone, Copy)]
    pub struct Parameters {
        pub u: f64,
        pub v: f64,
    }
}

pub mod geometry {
    use crate::shims::json::{FromValue, Value};

    pub mod pcurve {
        use super::{FromValue, Value};

        /// A trim whose u is its parameter. No sheet has one: its points come over
        /// the curve carrier.
        pub struct PcurveGeometry;

        impl FromValue for PcurveGeometry {
            fn from_value(_: &Value) -> Option<PcurveGeometry> {
                Some(PcurveGeometry)
            }
        }
    }

    /// The carrier of a coedge.
    pub enum CurveGeometry {
        /// The sheet's samples from this index on.
        Samples(usize),
        /// The same on a side of a triangle: the scene evaluates it.
        Circle(usize),
    }

    impl FromValue for CurveGeometry {
        fn from_value(value: &Value) -> Option<CurveGeometry> {
            let first_sample = value.get("first_sample")?.as_f64()? as usize;
            Some(match value.get("kind")?.as_str()? {
                "circle" => CurveGeometry::Circle(first_sample),
                _ => CurveGeometry::Samples(first_sample),
            })
        }
    }

    pub struct NurbsSurface;

    impl NurbsSurface {
        pub fn u_count(&self) -> usize {
            64
        }

        pub fn v_count(&self) -> usize {
            64
        }

        pub fn u_degree(&self) -> u32 {
            16
        }

        pub fn v_degree(&self) -> u32 {
            16
        }
    }

    /// The surfaces hold nothing: the scene evaluates them.
    pub enum SolvedSurfaceGeometry {
        Plane(()),
        Cylinder(()),
        Cone(()),
        Sphere(()),
        Torus(()),
        Nurbs(NurbsSurface),
        Other,
    }

    pub struct SurfaceGeometry(SolvedSurfaceGeometry);

    impl SurfaceGeometry {
        pub fn solved(&self) -> Option<&SolvedSurfaceGeometry> {
            Some(&self.0)
        }
    }

    impl FromValue for SurfaceGeometry {
        fn from_value(value: &Value) -> Option<SurfaceGeometry> {
            Some(SurfaceGeometry(match value.get("kind")?.as_str()? {
                "plane" => SolvedSurfaceGeometry::Plane(()),
                "cylinder" => SolvedSurfaceGeometry::Cylinder(()),
                "cone" => SolvedSurfaceGeometry::Cone(()),
                "sphere" => SolvedSurfaceGeometry::Sphere(()),
                "torus" => SolvedSurfaceGeometry::Torus(()),
                "nurbs" => SolvedSurfaceGeometry::Nurbs(NurbsSurface),
                "other" => SolvedSurfaceGeometry::Other,
                _ => return None,
            }))
        }
    }
}

pub mod eval {
    use super::geometry::{NurbsSurface, SolvedSurfaceGeometry};
    use super::math::{Parameters, Point3};
    use crate::shims::scene;

    pub mod admission {
        pub enum EvaluationAdmission {
            Standard,
        }
    }

    /// A number the geometry crate vouches for.
    pub struct Admitted<T>(T);

    impl<T> Admitted<T> {
        pub fn get(self) -> T {
            self.0
        }
    }

    #[derive(Debug)]
    pub struct Failed;

    pub fn analytic_surface_parameters_solved(
        _surface: &SolvedSurfaceGeometry,
        p: Point3,
    ) -> Option<Admitted<Parameters>> {
        let [u, v] = scene::with(|scene| scene.parameters([p.x, p.y, p.z]))?;
        Some(Admitted(Parameters { u, v }))
    }

    pub fn nurbs_surface_parameter_near_point(
        _admission: admission::EvaluationAdmission,
        _surface: &NurbsSurface,
        p: Point3,
        _guess: Option<Parameters>,
    ) -> Result<Option<Admitted<Parameters>>, Failed> {
        let uv = scene::with(|scene| scene.parameters([p.x, p.y, p.z]));
        Ok(uv.map(|[u, v]| Admitted(Parameters { u, v })))
    }

    pub mod decode {
        use super::admission::EvaluationAdmission;
        use super::{scene, Admitted, Failed, Parameters, Point3};
        use crate::shims::cadmpeg::geometry::pcurve::PcurveGeometry;
        use crate::shims::cadmpeg::geometry::{CurveGeometry, SurfaceGeometry};
        use crate::shims::scene::Scene;

        fn admitted(p: [f64; 3]) -> Admitted<Point3> {
            let [x, y, z] = p;
            Admitted(Point3 { x, y, z })
        }

        pub fn surface_point(
            _admission: EvaluationAdmission,
            _surface: &SurfaceGeometry,
            u: f64,
            v: f64,
        ) -> Result<Admitted<Point3>, Failed> {
            let p = scene::with(|scene| scene.evaluate([u, v])).ok_or(Failed)?;
            Ok(admitted(p))
        }

        /// The parameter counts a sheet's samples, from 0 to 16.
        pub fn curve_point(
            _admission: EvaluationAdmission,
            curve: &CurveGeometry,
            t: f64,
        ) -> Result<Admitted<Point3>, Failed> {
            match curve {
                CurveGeometry::Samples(first) => Ok(admitted(Scene::name(first + t as usize))),
                CurveGeometry::Circle(first) => {
                    let p = scene::with(|scene| scene.circle_point(*first, t));
                    p.map(admitted).ok_or(Failed)
                }
            }
        }

        pub fn pcurve_uv(
            _admission: EvaluationAdmission,
            _pcurve: &PcurveGeometry,
            t: f64,
        ) -> Result<Admitted<Parameters>, Failed> {
            Ok(Admitted(Parameters { u: t, v: 0.0 }))
        }
    }
}
