//! The check for dead declarations, on a small repository and on this one.

use std::env;
use std::fs;
use std::path::{Path, PathBuf};
use std::process;

use claims::dead;

const FILES: [(&str, &str); 8] = [
    (
        "crates/leaves/src/lib.rt",
        "ghost use Rattle.leaves.specs.Root.{rootOf};\n#[tactic(auto, using(crate::proofs::Hints::told),\n    \
         unfolding(leaves::specs::Root::opened))]\npub fn root(x: f64) -> f64\n",
    ),
    (
        "crates/leaves/specs/Root.antt",
        "use Rattle.std.specs.Prelude.{◌≡◌, Float}\n\nunfoldable pub rootOf : Float → Float\nrootOf x = halved (doubled x)\n\n\
         halved : Float → Float\nhalved x = x\n\n-- nothing asks for lost\npub lost : Float → Float\nlost x = halved x\n\n\
         abbrev pub ◌∘◌ : Float → Float → Float\nx ∘ y = x\n\npub halved_twice : Float → Float\nhalved_twice x = x\n\n\
         doubled : Float → Float\ndoubled x = halved x ∘ twice\n\nunfoldable pub opened : Float\nopened = nan\n",
    ),
    (
        "crates/leaves/proofs/Laws.antt",
        "use Rattle.leaves.specs.Root.{rootOf as root}\nuse Rattle.leaves.proofs.Hints as hints\n\nmodule _ (x : Float)\n    (y : Float) where\n  \
         pub root-law : root x ≡ x\n  unfolding root\n  root-law = step ∙ hints.whole\n    where\n      step : x ≡ x\n      step = refl\n\n  \
         spare : y ≡ y\n  spare = refl\n\npub cited : Float\ncited = nan\n",
    ),
    (
        "crates/leaves/proofs/Hints.antt",
        "pub told : Float\ntold = nan\n\npub whole : Float\nwhole = nan\n\npub untold : Float\nuntold = nan\n\npub ruleset rules = (told, untold)\n",
    ),
    (
        "crates/leaves/proofs/root/Answers.antt",
        "use Rattle.leaves.proofs.Laws.{root-law}\nuse Rattle.leaves.proofs.root.Goals as goal\n\n\
         pub returns : goal.returns\nreturns c = helper c.args.x\n\nhelper : Float → Float\nhelper c = root-law c\n\n\
         hidden : goal.hidden\nhidden c = c\n\npub misnamed : goal.returns\nmisnamed c = c\n\nidle : Float\nidle = nan\n",
    ),
    (
        "crates/leaves/proofs/root/Invariants.antt",
        "use Rattle.leaves.proofs.root.Given as goal\n\nabbrev pub invariant-loop-k : goal.invariant-loop-k\n\
         invariant-loop-k l = l.k ≡ l.k\n",
    ),
    (
        "crates/leaves/out/rlib/leaves.rlib/specs/Root.antt",
        "pub kept : Float\nkept = nan\n",
    ),
    ("README.md", "Laws: `cited`, `spare`.\n"),
];

/// The small repository in a folder of its own, until the test ends.
struct Repository(PathBuf);

impl Repository {
    fn new(test: &str) -> Repository {
        let repository = Repository(env::temp_dir().join(format!("dead-{}-{test}", process::id())));
        FILES
            .iter()
            .for_each(|(file, text)| repository.write(file, text));
        repository
    }

    fn write(&self, file: &str, text: &str) {
        let path = self.0.join(file);
        fs::create_dir_all(path.parent().unwrap()).unwrap();
        fs::write(path, text).unwrap();
    }
}

impl Drop for Repository {
    fn drop(&mut self) {
        let _ = fs::remove_dir_all(&self.0);
    }
}

#[test]
fn what_nothing_reaches_is_named() {
    let repository = Repository::new("named");
    repository.write("README.md", "Laws: `cited`.\n");
    let (dead, all) = dead(&repository.0).unwrap();
    let expected = [
        "crates/leaves/proofs/Hints.antt rules",
        "crates/leaves/proofs/Hints.antt untold",
        "crates/leaves/proofs/Laws.antt spare",
        "crates/leaves/proofs/root/Answers.antt hidden",
        "crates/leaves/proofs/root/Answers.antt idle",
        "crates/leaves/proofs/root/Answers.antt misnamed",
        "crates/leaves/specs/Root.antt halved_twice",
        "crates/leaves/specs/Root.antt lost",
    ];
    assert_eq!(dead, expected);
    assert_eq!(all, 20);
}

/// The answers stand in a function's folder of proofs/, and are called Answers.antt or
/// Invariants.antt there.
#[test]
fn a_goal_elsewhere_is_no_answer() {
    for path in [
        "specs/Answers.antt",
        "proofs/root/Laws.antt",
        "proofs/Goals.antt",
    ] {
        let repository = Repository::new("elsewhere");
        let text = "pub returns : goal.returns\nreturns c = c\n";
        repository.write(&format!("crates/leaves/{path}"), text);
        let (dead, _) = dead(&repository.0).unwrap();
        let named = format!("crates/leaves/{path} returns");
        assert!(dead.contains(&named), "{dead:?}");
    }
}

/// What comes from elsewhere is no file of ours, and names nothing here.
#[test]
fn each_way_to_a_declaration_is_one() {
    let code = "crates/leaves/src/lib.rt";
    let ways = [
        ("ghost use Rattle.leaves.specs.Root.{lost};\n", true),
        ("#[tactic(auto, using(crate::specs::Root::lost))]\n", true),
        (
            "#![tactic(auto, unfolding(leaves::specs::Root::lost))]\n",
            true,
        ),
        ("use Rattle.leaves.specs.Root.{lost};\n", false),
        ("ghost use Rattle.leaves.specs.{lost};\n", false),
        ("ghost use Rattle.std.specs.Root.{lost};\n", false),
        ("ghost use lib.Root.{lost};\n", false),
        ("// crate::specs::Root::lost\n", false),
        ("#[tactic(auto, using(std::specs::Root::lost))]\n", false),
    ];
    for (line, reaches) in ways {
        let repository = Repository::new("ways");
        let (_, text) = FILES[0];
        repository.write(code, &format!("{line}{text}"));
        let (dead, _) = dead(&repository.0).unwrap();
        let named = dead.iter().any(|name| name.ends_with("Root.antt lost"));
        assert_eq!(named, !reaches, "{line}");
    }
}

#[test]
fn a_name_on_a_page_is_reached() {
    let repository = Repository::new("page");
    let (dead, _) = dead(&repository.0).unwrap();
    assert!(!dead.iter().any(|name| name.ends_with(" spare")));
    assert!(dead.iter().any(|name| name.ends_with(" lost")));
}

#[test]
fn a_repository_without_crates_is_an_error() {
    assert!(dead(Path::new("/nowhere")).is_err());
}
