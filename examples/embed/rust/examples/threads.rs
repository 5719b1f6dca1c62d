//! A networked match in one process: a server, and two clients, each in a thread of its own, with channels in place of sockets. The second
//! client loses its connection once, and joins again by the state of the first.
//!
//! `SIMCORE=PREFIX cargo run --offline --example threads`

use simcore::{frames, Client, Error, Server, OFF, ON};
use std::collections::BTreeMap;
use std::sync::mpsc::{channel, Receiver, Sender};
use std::thread;

const TURNS: u32 = 60;
const LOST: u32 = 12;
const GAME: &str = r#"{"size":[24,12],"closed":[[11,0,12,3]],"players":[[2],[1]],"cap":0,"delay":3,"turns":60,"seed":5,
"templates":[{"@name":"guard","Health":{"Max":60},"Motion":{"Speed":3},
"Attack":{"Hack":8,"Range":1,"Vision":6,"Repeat":2}}],
"entities":[["guard",1,2,3],["guard",1,2,5],["guard",1,2,7],["guard",2,21,3],["guard",2,21,5]],"commands":[]}"#;

/// What comes from a client: frames, or the end of its connection.
type Said = (u32, Option<Vec<u8>>);
type Digests = BTreeMap<u32, [u8; 16]>;

/// Orders, and plays each turn that may be played, up to one of them.
fn go_on(client: &mut Client, number: u32, last: u32, found: &mut Digests) -> Result<(), Error> {
    while client.standing().stage == ON && client.standing().turn < last {
        let idle: Vec<_> = client.entities()?.into_iter().filter(|row| row.owner == number && row.going + row.target == 0).collect();
        for row in idle {
            client.order(&format!(r#"["walk",[{}],"11.5","5.5"]"#, row.id))?;
        }
        if client.play(1)? == 0 {
            break;
        }
        let (digest, turn) = client.digest()?;
        found.insert(turn, digest);
    }
    Ok(())
}

/// Loses the connection, and joins again.
fn lose(client: &mut Client, number: u32, up: &Sender<Said>) -> Result<(), Error> {
    client.cut();
    assert_eq!((client.standing().stage, client.join()?), (OFF, true));
    up.send((number, None)).expect("the server hears");
    Ok(())
}

/// A client to the end of its match; the digests of the turns that it played.
fn play(mut client: Client, number: u32, up: Sender<Said>, down: Receiver<Vec<u8>>) -> Result<Digests, Error> {
    let (mut found, mut last) = (Digests::new(), if number == 2 { LOST } else { TURNS });
    loop {
        go_on(&mut client, number, last, &mut found)?;
        if client.standing().turn == last && last == LOST {
            lose(&mut client, number, &up)?;
            last = TURNS;
        }
        let said = client.take()?;
        if !said.is_empty() {
            up.send((number, Some(said))).expect("the server hears");
        }
        if client.standing().turn == TURNS {
            return Ok(found);
        }
        let told = down.recv().expect("the server has more to say");
        for frame in frames(&told) {
            client.hear(frame)?;
        }
    }
}

/// The server to the end of all connections.
fn serve(mut server: Server, heard: Receiver<Said>, downs: &[Sender<Vec<u8>>]) -> Result<u32, Error> {
    for (from, said) in heard {
        match said {
            Some(said) => frames(&said).try_for_each(|frame| server.hear(from, frame).map(|_| ()))?,
            None => server.cut(from).map(|_| ())?,
        }
        for (to, down) in (1..).zip(downs) {
            let told = server.take(to)?;
            if !told.is_empty() {
                // A client that has played all hears no more.
                let _ = down.send(told);
            }
        }
    }
    Ok(server.released())
}

fn main() -> Result<(), Error> {
    let (up, heard) = channel();
    let (mut downs, mut threads) = (Vec::new(), Vec::new());
    for number in 1..=2 {
        let (down, told) = channel();
        let (client, up) = (Client::open(GAME.as_bytes(), number, true)?, up.clone());
        threads.push(thread::spawn(move || play(client, number, up, told)));
        downs.push(down);
    }
    drop(up);
    assert_eq!(serve(Server::open(GAME.as_bytes(), 2)?, heard, &downs)?, TURNS);
    let found: Vec<Digests> = threads.into_iter().map(|it| it.join().expect("a thread ends")).collect::<Result<_, _>>()?;
    let same = found[1].iter().filter(|(turn, digest)| found[0].get(turn) == Some(digest)).count();
    println!("client 1 played {} turns, client 2 {}, and {same} of them agree", found[0].len(), found[1].len());
    assert!(found[0].len() as u32 == TURNS && same == found[1].len() && same as u32 > LOST);
    Ok(())
}
