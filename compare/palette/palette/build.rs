//! Lays palette's source files out as a module tree under OUT_DIR, unchanged.
//!
//! PALETTE_SRC is the folder of the published crate palette 0.7.7, the one that has `src/`. A file is copied byte by
//! byte. After its last byte comes only an empty module where the file may end in an attribute (its tests left out), and
//! in ok_utils.rs a module that opens private functions. Of rgb.rs, rgb/rgb.rs and xyz.rs, which rest on many other
//! files, single items are copied, each from its first line to the first line that is `}`.
use std::fmt::Write;
use std::path::{Path, PathBuf};
use std::{env, fs};

/// For an attribute at the end of a file.
const EMPTY: &str = "\nmod empty {}\n";

/// The types that a file of a colour space takes from its submodules `alpha` and `properties`.
const ITER: &str = "pub type Iter = ();\n";

/// Opens what `ok_utils` keeps private; adds nothing to it.
const OPENED: &str = r#"
pub mod opened {
    use super::*;

    /// Lightness and chroma of the cusp of the hue (a, b).
    pub fn find_cusp<T>(a: T, b: T) -> (T, T)
    where
        T: Real + One + Arithmetics + Powi + HasBoolMask<Mask = bool> + PartialOrd + Clone + MinMax + Cbrt,
        Oklab<T>: IntoColorUnclamped<LinSrgb<T>>,
    {
        let cusp = LC::find_cusp(a, b);
        (cusp.lightness, cusp.chroma)
    }

    /// The chroma values zero, mid and max of a lightness and the hue (a, b).
    pub fn chroma_values<T>(lightness: T, a: T, b: T) -> (T, T, T)
    where
        T: Real + One + Zero + Arithmetics + MinMax + Cbrt + Sqrt + Powi + Clone + HasBoolMask<Mask = bool> + PartialOrd,
        Oklab<T>: IntoColorUnclamped<LinSrgb<T>>,
    {
        let values = ChromaValues::from_normalized(lightness, a, b);
        (values.zero, values.mid, values.max)
    }

    pub fn toe<T>(lightness: T) -> T
    where
        T: Real + Powi + Sqrt + Arithmetics + One + Clone,
    {
        super::toe(lightness)
    }

    pub fn toe_inv<T>(lightness: T) -> T
    where
        T: Real + Powi + Arithmetics + One + Clone,
    {
        super::toe_inv(lightness)
    }
}
"#;

struct Tree {
    source: PathBuf,
    out: PathBuf,
    /// The declarations of the modules laid out so far.
    root: String,
}

impl Tree {
    fn read(&self, path: &str) -> String {
        let file = self.source.join("src").join(path);
        println!("cargo:rerun-if-changed={}", file.display());
        fs::read_to_string(&file).unwrap_or_else(|e| panic!("{}: {e}", file.display()))
    }

    fn write(&self, path: &str, text: &str) {
        let file = self.out.join(path);
        fs::create_dir_all(file.parent().unwrap()).unwrap();
        fs::write(&file, text).unwrap_or_else(|e| panic!("{}: {e}", file.display()));
    }

    /// A module of a whole file, with `after` behind its last byte.
    fn module(&mut self, name: &str, path: &str, after: &str) {
        let file = format!("{name}/mod.rs");
        self.write(&file, &(self.read(path) + after));
        let file = self.out.join(file);
        writeln!(self.root, "#[path = {:?}]\npub mod {name};", as_text(&file)).unwrap();
    }

    /// The module of a colour space, with stand-ins for what its submodules declare.
    fn space(&mut self, name: &str, with_alpha: &str, properties: &str) {
        self.module(name, &format!("{name}.rs"), "");
        self.write(&format!("{name}/alpha.rs"), &format!("pub type {with_alpha} = ();\n"));
        self.write(&format!("{name}/properties.rs"), &format!("{properties}{ITER}"));
    }

    /// Single items of a file, by their first lines.
    fn items(&self, name: &str, path: &str, starts: &[&str]) {
        let text = self.read(path);
        let items: Vec<&str> = starts.iter().map(|start| item(&text, start)).collect();
        self.write(name, &items.join("\n"));
    }
}

fn as_text(path: &Path) -> String {
    path.to_str().expect("a path that is UTF-8").to_string()
}

/// The item that starts with `start`, to the next line that is `}`.
fn item<'a>(text: &'a str, start: &str) -> &'a str {
    let at = text.find(start).unwrap_or_else(|| panic!("no item {start:?}"));
    let end = text[at..].find("\n}\n").expect("the item's last line") + 3;
    &text[at..at + end]
}

fn main() {
    println!("cargo:rerun-if-env-changed=PALETTE_SRC");
    let source = env::var("PALETTE_SRC").expect("PALETTE_SRC: the folder of palette 0.7.7 that has src/");
    let mut tree = Tree {
        source: PathBuf::from(source),
        out: PathBuf::from(env::var("OUT_DIR").unwrap()).join("palette"),
        root: String::new(),
    };

    tree.module("num", "num.rs", "");
    tree.module("angle", "angle.rs", "");
    tree.module("matrix", "matrix.rs", EMPTY);
    tree.module("white_point", "white_point.rs", "");
    tree.module("ok_utils", "ok_utils.rs", &format!("{EMPTY}{OPENED}"));
    let get_hue = tree.read("oklab/properties.rs") + "\n";
    tree.space("oklab", "Oklaba", &get_hue);
    tree.space("oklch", "Oklcha", "");
    tree.space("okhsl", "Okhsla", "");
    tree.space("okhsv", "Okhsva", "");
    tree.space("okhwb", "Okhwba", "");
    tree.module("from_into_color_unclamped", "convert/from_into_color_unclamped.rs", "");
    tree.write("root.rs", &tree.root);

    tree.items(
        "xyz_items.rs",
        "xyz.rs",
        &["impl<T> FromColorUnclamped<Oklab<T>> for Xyz<D65, T>\n"],
    );
    tree.items(
        "rgb_items.rs",
        "rgb/rgb.rs",
        &[
            "impl<S: RgbStandard, T> Rgb<S, T> {\n",
            "impl<S, T> Rgb<S, T>\nwhere\n    S: RgbStandard,\n{\n    #[inline]\n    pub(crate) fn reinterpret_as",
            "impl<S1, S2, T> FromColorUnclamped<Rgb<S2, T>> for Rgb<S1, T>\n",
            "impl<S, T> FromColorUnclamped<Oklab<T>> for Rgb<S, T>\n",
        ],
    );
    tree.items(
        "rgb_traits.rs",
        "rgb.rs",
        &[
            "pub trait RgbStandard {\n",
            "pub trait RgbSpace {\n",
            "impl<P, W> RgbSpace for (P, W) {\n",
            "pub trait Primaries<T> {\n",
        ],
    );
}
