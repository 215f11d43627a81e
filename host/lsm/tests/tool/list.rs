// `lsm list`. The files of files/ have their printouts beside them.

use std::ffi::OsStr;
use std::fs;
use std::path::{Path, PathBuf};

use crate::json::Json;
use crate::made::Made;
use crate::run::{fed, lsm, said, shell, Folder};

fn files() -> Vec<PathBuf> {
    let folder = Path::new(env!("CARGO_MANIFEST_DIR")).join("../../files");
    let entries = fs::read_dir(&folder).expect("files/").map(|e| e.expect("an entry").path());
    let mut files: Vec<_> = entries.filter(|f| f.extension().is_some_and(|e| e == "lsm")).collect();
    files.sort();
    assert!(files.len() > 20);
    files
}

fn stem(file: &Path) -> String {
    file.file_stem().expect("a stem").to_string_lossy().into_owned()
}

// What the lister prints, but where its limits show: it takes 65,536 bytes and a table of 4,096 words, and the tool takes any.
fn wanted(file: &Path) -> String {
    let plain = "pixel - - -\nscenes 1\nimage\nchannels 1\n- -\nnotes 0\n";
    match stem(file).as_str() {
        "too-long" => "refused 1\n".to_string(),
        "strips-2049" => format!("accepted\ndims 1 1 1 2049 1\nkind 0\n{plain}"),
        "year" => {
            let head = "accepted\ndims 52 20 2 1 2\nkind 1\npixel 3f800000 3f800000 40000000\nscenes 1\nimage\nchannels 20\n";
            // the bytes behind the names are no names: each has length 0
            format!("{head}{}notes 0\n", "00ff00 =\n".repeat(20))
        }
        _ => fs::read_to_string(file.with_extension("txt")).expect("a printout"),
    }
}

fn status(printout: &str) -> i32 {
    printout.starts_with("refused") as i32
}

#[test]
fn list_prints_what_the_lister_prints() {
    let folder = Folder::new("list");
    for file in files() {
        let want = wanted(&file);
        assert_eq!(lsm(&folder, &["list".as_ref(), file.as_os_str()]), said(status(&want), &want, ""), "{}", file.display());
    }
}

#[test]
fn several_files_have_headings() {
    let folder = Folder::new("headings");
    let files = files();
    let words: Vec<_> = std::iter::once(OsStr::new("list")).chain(files.iter().map(|f| f.as_os_str())).collect();
    let said = lsm(&folder, &words);
    let want: String = files.iter().map(|f| format!("file {}\n{}", f.display(), wanted(f))).collect();
    assert_eq!((said.status, said.out == want, said.err.as_str()), (1, true, ""));
}

#[test]
fn standard_input_and_a_fifo_are_read() {
    let folder = Folder::new("fifo");
    let g = fs::read(files().iter().find(|f| stem(f) == "g").unwrap()).unwrap();
    let want = "accepted\ndims 1 1 1 1 2\nkind 0\npixel - - -\nscenes 1\nimage\nchannels 1\n- -\nnotes 0\n";
    assert_eq!(fed(&folder, &["list", "-"], &g).out, want);
    folder.put("g.lsm", &g);
    assert_eq!(shell(&folder, "mkfifo f && { cat g.lsm > f & \"$LSM\" list f; }").out, want);
    assert_eq!(shell(&folder, "\"$LSM\" list - < g.lsm").out, want);
}

// The printout made again from the JSON says that both have the same.
#[test]
fn json_has_what_the_text_has() {
    let folder = Folder::new("json");
    for file in files() {
        let said = lsm(&folder, &["list".as_ref(), "--json".as_ref(), file.as_os_str()]);
        assert_eq!(said.out.lines().count(), 1);
        let json = Json::read(&said.out);
        assert_eq!(json.at("file").text(), file.to_string_lossy());
        let want = wanted(&file);
        assert_eq!((text_of(&json), said.status), (want.clone(), status(&want)), "{}", file.display());
    }
}

fn text_of(json: &Json) -> String {
    let numbers = |values: Vec<&Json>| values.iter().map(|v| format!(" {}", v.number())).collect::<String>();
    if json.at("accepted") == &Json::Bool(false) {
        let refusal = json.at("refusal");
        return format!("refused {}{}\n", refusal.at("number").number(), numbers(refusal.at("values").values()));
    }
    let kinds = ["U8", "U16", "I16", "F32"];
    let kind = kinds.iter().position(|k| *k == json.at("kind").text()).unwrap();
    let lines = |key: &str, line: &dyn Fn(&Json) -> String| json.at(key).values().iter().map(|v| line(v) + "\n").collect::<String>();
    let size = json.at("pixel_size");
    let sizes = ["x", "y", "z"].map(|axis| if size == &Json::Null { "-".to_string() } else { bits(size.at(axis)) });
    let (scenes, channels, notes) = (json.at("scenes").values(), json.at("channels").values(), json.at("notes").values());
    format!(
        "accepted\ndims{}\nkind {kind}\npixel {}\nscenes {}\n{}channels {}\n{}notes {}\n{}",
        numbers(json.at("dims").values()),
        sizes.join(" "),
        scenes.len(),
        lines("scenes", &|s| s.text().to_string()),
        channels.len(),
        lines("channels", &channel),
        notes.len(),
        lines("notes", &|n| n.text().to_string()),
    )
}

fn bits(size: &Json) -> String {
    match size {
        Json::Null => "-".to_string(),
        Json::Text(inf) => format!("{:08x}", inf.parse::<f32>().unwrap().to_bits()),
        number => format!("{:08x}", number.number().parse::<f32>().unwrap().to_bits()),
    }
}

fn channel(c: &Json) -> String {
    let hex = |name: &str| name.bytes().map(|b| format!("{b:02x}")).collect::<String>();
    let color = if let Json::Text(color) = c.at("color") { color.strip_prefix('#').unwrap() } else { "-" };
    let name = if let Json::Text(name) = c.at("name") { format!("={}", hex(name)) } else { "-".to_string() };
    format!("{color} {name}")
}

#[test]
fn json_of_a_made_file() {
    let folder = Folder::new("json-made");
    let voxel = Some([0.5, 0.25, 2.0]);
    let names = vec![("a \"b\"\\\n\u{1}é".to_string(), [1, 2, 255]), (String::new(), [0, 0, 0])];
    let made = Made { big_endian: true, interleaved: true, channels: 2, times: 3, thumbnails: true, voxel, names, ..Made::default() };
    folder.put("m.lsm", &made.bytes());
    let want = concat!(
        r##"{"file": "m.lsm", "accepted": true, "dims": {"t": 3, "c": 2, "z": 1, "y": 5, "x": 7}, "kind": "U8", "byte_order": "big", "##,
        r##""interleaved": true, "scenes": ["image"], "pages_per_time_point": 1, "strips_per_channel": 1, "##,
        r##""pixel_size": {"x": 0.5, "y": 0.25, "z": 2.0}, "channels": [{"name": "a \"b\"\\\u000a\u0001é", "color": "#0102ff"}, "##,
        r##"{"name": "", "color": "#000000"}], "notes": [], "directories_visited": 6}"##,
        "\n",
    );
    assert_eq!(lsm(&folder, &["list", "--json", "m.lsm"]), said(0, want, ""));
    let said = lsm(&folder, &["list", "--json", "missing.lsm"]);
    assert_eq!((said.status, said.out.as_str()), (2, "{\"file\": \"missing.lsm\", \"error\": \"No such file or directory (os error 2)\"}\n"));
}
