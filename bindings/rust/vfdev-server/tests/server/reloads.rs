//! The configuration, and what changes when it is read anew.

use crate::driver::{
    Guest, ACK, CTS, GET_LINK_STATE, NACK, RESET, VFMAILBOX, VFMAILBOX_PFSTS, VFMAILBOX_RSTD,
};
use crate::program::{Folder, Server};
use std::fs;

// Two functions, of which more may be said.
fn config(one: &str, two: &str) -> String {
    format!(
        "vlans = [0, 7]\n\n[[function]]\nnumber = 0\nname = \"web\"\n{one}\n\n[[function]]\nnumber = 1\nname = \"store\"\n{two}\n"
    )
}

const ONE: &str = "address = \"02:00:00:00:00:0a\"\nvlans = [0]";
const TWO: &str = "address = \"02:00:00:00:00:0b\"\nvlans = [0]";

// A server with such a configuration.
fn start(one: &str, two: &str) -> Server {
    let folder = Folder::new();
    let file = folder.at("vfdev.toml");
    fs::write(&file, config(one, two)).expect("a file");
    let file = file.to_str().expect("a name").to_owned();
    Server::with(folder, 3, &["--config", &file])
}

// Another one is read.
fn reload(server: &Server, text: &str, due: &[&str]) {
    fs::write(server.folder.at("vfdev.toml"), text).expect("a file");
    server.signal(libc::SIGHUP);
    server.wait_for_line(due);
}

#[test]
fn functions_have_what_the_configuration_says() {
    let server = start(ONE, &format!("{TWO}\nlink_up = false\nmay_choose = true"));
    let mut one = Guest::attach(&server, 0);
    assert_eq!(one.mac, [2, 0, 0, 0, 0, 10]);
    assert_eq!(one.ask(&[GET_LINK_STATE])[1], 1);
    let mut two = Guest::attach(&server, 1);
    assert_eq!(two.ask(&[GET_LINK_STATE])[1], 0);
    let word = crate::driver::SET_ADDRESS;
    assert_eq!(two.ask(&[word, 2, 0x0C00, 0])[0], word | ACK | CTS);
    // one that isn't named may not even begin
    let mut three = Guest::begin(&server, 2);
    assert_eq!(three.ask(&[RESET])[0], RESET | NACK);
    assert!(server
        .counters()
        .contains("vfdev_attached{function=\"1\",name=\"store\"} 1"));
    server.wait_for_line(&["attached", "name=store"]);
}

#[test]
fn a_link_goes_down_and_up_again() {
    let server = start(ONE, TWO);
    let (mut one, mut two) = (Guest::attach(&server, 0), Guest::attach(&server, 1));
    let frame = one.frame(two.mac, b"before");
    one.send(&frame);
    assert_eq!(two.wait(), frame);
    two.client.read(VFMAILBOX);
    reload(
        &server,
        &config(ONE, &format!("{TWO}\nlink_up = false")),
        &["the configuration is taken"],
    );
    // its driver is told, looks, and receives nothing any more
    assert_ne!(two.client.read(VFMAILBOX) & VFMAILBOX_PFSTS, 0);
    assert_eq!(two.ask(&[GET_LINK_STATE])[1], 0);
    one.send(&one.frame(two.mac, b"lost"));
    one.settle();
    assert!(two.take().is_none());
}

#[test]
fn two_functions_exchange_their_addresses() {
    let server = start(ONE, TWO);
    let (mut one, mut two) = (Guest::attach(&server, 0), Guest::attach(&server, 1));
    for guest in [&mut one, &mut two] {
        guest.client.read(VFMAILBOX);
    }
    reload(&server, &config(TWO, ONE), &["the configuration is taken"]);
    for (guest, last) in [(&mut one, 11), (&mut two, 10)] {
        assert_ne!(
            guest.client.read(VFMAILBOX) & VFMAILBOX_RSTD,
            0,
            "it is told that it was reset"
        );
        guest.start_driver();
        assert_eq!(guest.mac, [2, 0, 0, 0, 0, last]);
    }
    let frame = one.frame(two.mac, b"after");
    one.send(&frame);
    assert_eq!(two.wait(), frame);
}

#[test]
fn a_function_loses_its_policy() {
    let server = start(ONE, TWO);
    let (mut one, mut two) = (Guest::attach(&server, 0), Guest::attach(&server, 1));
    let alone = config(ONE, TWO);
    let alone = alone
        .split("\n\n[[function]]\nnumber = 1")
        .next()
        .expect("a part");
    reload(&server, alone, &["the configuration is taken"]);
    one.send(&one.frame(two.mac, b"lost"));
    one.settle();
    assert!(two.take().is_none());
    assert_eq!(two.ask(&[RESET])[0], RESET | NACK);
    assert_eq!(one.ask(&[GET_LINK_STATE])[0], GET_LINK_STATE | ACK | CTS);
}

#[test]
fn a_bad_configuration_leaves_the_old_one() {
    let server = start(ONE, TWO);
    let mut one = Guest::attach(&server, 0);
    let bad = config(ONE, TWO).replace("name = \"store\"", "nome = \"store\"");
    reload(
        &server,
        &bad,
        &[
            "the old one stays",
            "vfdev.toml: line 11: there is no field `nome` here",
        ],
    );
    let ids = config(ONE, TWO).replace("[0, 7]", "[0, 8]");
    reload(
        &server,
        &ids,
        &["the old one stays", "are set when the program starts"],
    );
    assert_eq!(one.ask(&[GET_LINK_STATE])[1], 1);
}

// What the card does for its guests' drivers is fixed; to say what it does already changes nothing.
#[test]
fn offloads_stay_as_they_were_at_the_start() {
    let server = start(ONE, TWO);
    let with = |offloads: &str| format!("offloads = {offloads}\n{}", config(ONE, TWO));
    reload(
        &server,
        &with("[\"vlan\"]"),
        &[
            "the old one stays",
            "`offloads` at its top are set when the program starts",
        ],
    );
    assert!(!server.log().contains("the configuration is taken"));
    let usual = "vlan,checksum,segmentation,auto-mask,legacy-receive,receive-checksum";
    reload(
        &server,
        &with(&format!("\"{usual}\"")),
        &["the configuration is taken"],
    );
}
