//! Names the crate's six files to the compiler, unchanged and where they lie. `AIGER_SRC` names their
//! folder, a relative one counted from the repository's root. The one copy that is made, `probed`, is
//! aig.rs with a note of the stack's height before each push; it goes to the build's own folder.
use std::{env, fs, path::Path};

const FILES: [&str; 6] = ["aig", "ascii", "binary", "error", "lit", "token"];
const DEFAULT: &str = "../shared/docs/src/src";
const PUSH: &str = "self.stack.push(";

fn main() {
    println!("cargo:rerun-if-env-changed=AIGER_SRC");
    let root = Path::new(&env::var("CARGO_MANIFEST_DIR").unwrap()).join("../../..");
    let folder = root.join(env::var("AIGER_SRC").unwrap_or_else(|_| DEFAULT.into()));
    let out = env::var("OUT_DIR").unwrap();

    let mut modules = String::new();
    for name in FILES {
        let file = folder.join(format!("{name}.rs"));
        let file = fs::canonicalize(&file)
            .unwrap_or_else(|_| panic!("AIGER_SRC: there is no {}", file.display()));
        println!("cargo:rerun-if-changed={}", file.display());
        modules += &format!("#[path = {file:?}]\npub mod {name};\n");
    }

    let aig = fs::read_to_string(folder.join("aig.rs")).unwrap();
    assert_eq!(aig.matches(PUSH).count(), 2, "aig.rs has two pushes");
    let probed = aig.replace(PUSH, &format!("crate::probe(self.stack.len() + 1); {PUSH}"));
    fs::write(format!("{out}/probed.rs"), probed).unwrap();
    modules += &format!(
        "#[path = {:?}]\npub mod probed;\n",
        format!("{out}/probed.rs")
    );
    fs::write(format!("{out}/modules.rs"), modules).unwrap();
}
