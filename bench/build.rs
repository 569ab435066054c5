//! Compiles the C baseline, with zlib and libisal too where they are installed, and notes the tools' versions.
//! CC and AR name other tools than gcc and ar.
use std::env;
use std::fs;
use std::path::{Path, PathBuf};
use std::process::{exit, Command};

const SOURCE: &str = "baseline.c";
const FLAGS: [&str; 4] = ["-O3", "-Wall", "-Wextra", "-std=c11"];

// A library that the baseline can take its check from: what it is called where it is used, the name that it is linked by,
// what defines it in the source, and a program that calls it.
struct Library {
    name: &'static str,
    linked: &'static str,
    flag: &'static str,
    probe: &'static str,
}

const LIBRARIES: [Library; 2] = [
    Library {
        name: "zlib",
        linked: "z",
        flag: "-DZLIB",
        probe: "#include <zlib.h>\nint main(void) { return (int)crc32(0, 0, 0); }\n",
    },
    Library {
        name: "isal",
        linked: "isal",
        flag: "-DISAL",
        probe: "#include <isa-l.h>\nint main(void) { return (int)crc32_gzip_refl(0, 0, 0); }\n",
    },
];

fn fail(message: &str) -> ! {
    eprintln!("bench: {message}");
    exit(1)
}

// Whether a command ran and succeeded; what it says of a failure is shown only where it matters.
fn succeeds(command: &mut Command) -> bool {
    command.output().is_ok_and(|output| {
        if !output.status.success() {
            eprint!("{}", String::from_utf8_lossy(&output.stderr));
        }
        output.status.success()
    })
}

// The tool that a variable names, or the usual one.
fn tool(variable: &str, usual: &str) -> String {
    println!("cargo:rerun-if-env-changed={variable}");
    let named = env::var(variable).ok().filter(|name| !name.is_empty());
    named.unwrap_or_else(|| usual.to_owned())
}

fn compiler() -> String {
    tool("CC", "gcc")
}

fn compile(folder: &Path, object: &str, more: &[&str]) -> bool {
    let mut gcc = Command::new(compiler());
    gcc.args(FLAGS).args(more).arg("-c").arg(SOURCE);
    succeeds(gcc.arg("-o").arg(folder.join(object)))
}

// A library counts as installed if a program that calls it can be linked.
fn has(library: &Library, folder: &Path) -> bool {
    let probe = folder.join("probe.c");
    if fs::write(&probe, library.probe).is_err() {
        return false;
    }
    let mut gcc = Command::new(compiler());
    gcc.arg(&probe).arg("-o").arg(folder.join("probe"));
    succeeds(gcc.arg(format!("-l{}", library.linked)))
}

// The first line that a tool says of its version.
fn version(tool: &str) -> String {
    let output = Command::new(tool).arg("--version").output();
    let text = output.map(|o| String::from_utf8_lossy(&o.stdout).into_owned());
    let text = text.unwrap_or_default();
    text.lines().next().unwrap_or("unknown").to_owned()
}

fn main() {
    println!("cargo:rerun-if-changed=build.rs");
    println!("cargo:rerun-if-changed={SOURCE}");
    let folder = PathBuf::from(env::var_os("OUT_DIR").unwrap_or_default());
    if !compile(&folder, "slicing.o", &[]) {
        fail(&format!("{} could not compile {SOURCE}", compiler()));
    }
    let mut objects = vec!["slicing.o".to_owned()];
    let mut installed = Vec::new();
    for library in &LIBRARIES {
        let name = library.name;
        println!("cargo:rustc-check-cfg=cfg({name})");
        let object = format!("{name}.o");
        if has(library, &folder) && compile(&folder, &object, &[library.flag]) {
            println!("cargo:rustc-cfg={name}");
            objects.push(object);
            installed.push(library.linked);
        }
    }
    // an archive of an earlier build may hold an object that is no longer wanted
    let archive = folder.join("libbaseline.a");
    let _ = fs::remove_file(&archive);
    let mut ar = Command::new(tool("AR", "ar"));
    ar.arg("crs").arg("libbaseline.a").args(objects);
    if !succeeds(ar.current_dir(&folder)) {
        fail("ar could not make an archive");
    }
    println!("cargo:rustc-link-search=native={}", folder.display());
    println!("cargo:rustc-link-lib=static=baseline");
    // behind the archive that calls them, since some linkers go by the order
    for linked in installed {
        println!("cargo:rustc-link-lib={linked}");
    }
    let rustc = env::var("RUSTC").unwrap_or_else(|_| "rustc".to_owned());
    println!("cargo:rustc-env=BENCH_RUSTC={}", version(&rustc));
    println!("cargo:rustc-env=BENCH_GCC={}", version(&compiler()));
}
