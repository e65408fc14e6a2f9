//! What the program says where it can't start.

use crate::program::{refused, words_for, Folder, Server};
use std::fs::{self, Permissions};
use std::os::unix::fs::PermissionsExt;

// The words beside those that every start needs, the status, and what is said.
#[test]
fn bad_words_are_told() {
    for (words, status, said) in [
        (&["--functions", "0"][..], 2, "'--functions <N>'"),
        (&["--functions", "65"], 2, "'--functions <N>'"),
        (&["--frame", "1517"], 2, "'--frame <BYTES>'"),
        (&["--frame", "9019"], 2, "'--frame <BYTES>'"),
        (
            &["--log-level", "loud"],
            2,
            "a level is error, warn, info, debug or trace",
        ),
        (
            &["--wire", "cable"],
            2,
            "a wire is tap:NAME or unix:PATH,PEER",
        ),
        (
            &["--wire", "tap:a-name-that-is-long"],
            2,
            "the name of a tap has 1 to 15 bytes",
        ),
        (&["--poll", "1000001"], 2, "'--poll <US>'"),
        (
            &["--offloads", "vlan,tso"],
            2,
            "'--offloads <LIST>': there is no offload `tso`: they are vlan, checksum, segmentation, auto-mask, legacy-receive, throttle and receive-checksum, or all or none alone",
        ),
        (
            &["--offloads", "vlan,vlan"],
            2,
            "'--offloads <LIST>': the offload `vlan` stands here twice",
        ),
        (&["--what"], 2, "--what"),
        (
            &["--config", "/nowhere/vfdev.toml"],
            2,
            "/nowhere/vfdev.toml: No such file or directory",
        ),
        (
            &["--wire", "unix:/nowhere/a,/nowhere/b"],
            1,
            "/nowhere/a: No such file or directory",
        ),
    ] {
        let folder = Folder::new();
        let mut all = words_for(&folder.at("s"));
        if words[0] == "--functions" {
            all.drain(..2);
        }
        all.extend(words.iter().map(|word| (*word).to_owned()));
        let all: Vec<&str> = all.iter().map(String::as_str).collect();
        let (code, log) = refused(&folder, &all);
        assert_eq!(code, Some(status), "{words:?}: {log}");
        assert!(log.contains(said), "{words:?}: {log}");
    }
}

// A configuration, and what is said of it. The line is counted from 1.
#[test]
fn a_bad_configuration_is_told_with_its_line() {
    for (text, said) in [
        (
            "vlans = [0]\nvlans = [1]\n",
            "line 2: the field `vlans` stands here twice",
        ),
        (
            "vlans = [0]\n\n[[function]]\nnumber = 2\n",
            "line 3: missing field `address`",
        ),
        (
            "vlans = [0]\n[[function]]\nnumber = 2\naddress = \"02:00:00:00:00:01\"\nvlans = [0]\n",
            "line 3: there is no function 2: --functions 2 makes 0 to 1",
        ),
        (
            "vlans = [0]\n[[function]]\nnumber = 1\naddress = \"01:00:00:00:00:01\"\nvlans = [0]\n",
            "line 4: the address 01:00:00:00:00:01 is a group's, and not one station's",
        ),
        (
            "vlans = [0]\noffloads = [\"vlan\", \"tso\"]\n",
            "line 2: there is no offload `tso`: they are vlan, checksum, segmentation, auto-mask, legacy-receive, throttle and receive-checksum, or all or none alone",
        ),
    ] {
        let folder = Folder::new();
        let file = folder.at("vfdev.toml");
        fs::write(&file, text).expect("a file");
        let mut all = words_for(&folder.at("s"));
        all.extend(["--config".to_owned(), file.display().to_string()]);
        let all: Vec<&str> = all.iter().map(String::as_str).collect();
        let (code, log) = refused(&folder, &all);
        assert_eq!(code, Some(2), "{text}: {log}");
        let due = format!("{}: {said}", file.display());
        assert!(log.contains(&due), "{text}: {log}");
        assert!(!folder.at("s").exists(), "nothing was made");
    }
}

// What the card does: what is usual where nothing is said, what the configuration says, and what the word says before all.
#[test]
fn offloads_are_those_of_the_word_or_of_the_configuration() {
    let usual = "offloads=vlan,checksum,segmentation,auto-mask,legacy-receive,receive-checksum";
    let text = "vlans = [0]\noffloads = [\"checksum\", \"vlan\"]\n";
    for (text, words, made) in [
        (None, &[][..], usual),
        (None, &["--offloads", "all"], "offloads=all"),
        (None, &["--offloads", "none"], "offloads=none"),
        (None, &["--offloads", "auto-mask"], "offloads=auto-mask"),
        (Some("vlans = [0]\n"), &[], usual),
        (Some(text), &[], "offloads=vlan,checksum"),
        (Some(text), &["--offloads", "all"], "offloads=all"),
    ] {
        let folder = Folder::new();
        let file = folder.at("vfdev.toml");
        let file = file.to_str().expect("a name").to_owned();
        let mut all = words.to_vec();
        if let Some(text) = text {
            fs::write(&file, text).expect("a file");
            all.extend(["--config", &file]);
        }
        let server = Server::with(folder, 1, &all);
        server.wait_for_line(&["the card is made", made]);
    }
}

#[test]
fn a_folder_that_others_may_enter_is_refused() {
    let folder = Folder::new();
    let directory = folder.at("s");
    fs::create_dir(&directory).expect("a folder");
    fs::set_permissions(&directory, Permissions::from_mode(0o755)).expect("a mode");
    let all = words_for(&directory);
    let all: Vec<&str> = all.iter().map(String::as_str).collect();
    let (code, log) = refused(&folder, &all);
    assert_eq!(code, Some(1));
    assert!(
        log.contains("others may enter it (mode 0755): it wants mode 0700"),
        "{log}"
    );
}

// A second program leaves the first one's sockets alone; after it was killed they are replaced.
#[test]
fn a_socket_in_use_is_left_alone() {
    let mut first = Server::new(2);
    let all = words_for(&first.folder.at("s"));
    let all: Vec<&str> = all.iter().map(String::as_str).collect();
    let (code, log) = refused(&first.folder, &all);
    assert_eq!(code, Some(1));
    assert!(
        log.contains("s/vf0: another program has this socket open"),
        "{log}"
    );
    let mode = fs::metadata(first.socket("vf1")).map(|told| told.permissions().mode() & 0o777);
    assert_eq!(mode.ok(), Some(0o600));
    first.client(1);
    first.signal(libc::SIGKILL);
    first.wait();
    assert!(first.socket("vf0").exists());
    let folder = std::mem::replace(&mut first.folder, Folder::new());
    fs::remove_file(folder.at("log")).expect("a log");
    let second = Server::with(folder, 2, &[]);
    second.client(0);
}

// The configuration that is installed as an example is one, and the document shows it.
#[test]
fn the_example_of_a_configuration_is_taken() {
    let here = env!("CARGO_MANIFEST_DIR");
    let example = format!("{here}/vfdev-server.toml");
    let text = fs::read_to_string(&example).expect("the example");
    let (_, shown) = text.split_at(text.find("vlans").expect("its first word"));
    let document = fs::read_to_string(format!("{here}/../../../docs/SERVER.md"));
    let block = format!("```toml\n{shown}```\n");
    assert!(document.expect("the document").contains(&block));
    let server = Server::with(Folder::new(), 2, &["--config", &example]);
    assert!(server
        .counters()
        .contains("{function=\"0\",name=\"web\"} 0"));
}
