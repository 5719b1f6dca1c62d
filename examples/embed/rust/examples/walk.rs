//! A walker walks, and each call is refused once: `SIMCORE=PREFIX cargo run --offline --example walk`.

use simcore::{fits, run, Client, Error, Game, Match, Server, JOINING, OFF};

const GAME: &str = r#"{"size":[8,8],"closed":[],"players":[[]],"cap":0,"delay":1,"turns":9,"seed":0,
"templates":[{"@name":"walker","Motion":{"Speed":10}}],"entities":[["walker",1,"2.5","2.5"]],"commands":[]}"#;

fn main() -> Result<(), Error> {
    assert!(fits());
    let game = Match::new(GAME.into())?;
    let mut state = game.first()?;
    for turn in 0..game.facts.turns {
        let orders = if turn == 0 { r#"[[1,"walk",[2],"6.5","2.5"]]"# } else { "[]" };
        state = game.turn(&state.bytes, orders)?;
        print!("{}", game.show(&state.bytes)?);
    }
    let (first, walker) = (game.first()?, game.entities(&state.bytes)?[0]);
    assert_eq!((walker.id, walker.x, walker.going), (2, 6 * 65536 + 32768, 0));
    assert_eq!(game.digest(&state.bytes)?, (state.digest, game.facts.turns));
    assert_eq!(game.compare(&state.bytes, &state.bytes)?, None);
    assert_eq!(game.compare(&first.bytes, &state.bytes)?, Some((1, 0)));
    assert_eq!(game.turn(&state.bytes, "[]"), Err(Error::Over));
    assert_eq!(game.turn(&first.bytes, r#"[[1,"stop",[2]],[2,"resign"]]"#), Err(Error::Commands { item: 2 }));
    assert_eq!(game.digest(b"no state"), Err(Error::State { code: 1, second: false }));
    assert_eq!(game.compare(&state.bytes, b"no state"), Err(Error::State { code: 1, second: true }));
    assert!(matches!(Match::new(Vec::new()), Err(Error::Match { code: 1, index: 0 })));
    let files = [("m", GAME.as_bytes()), ("s", &state.bytes)];
    let (shown, stored) = (run(&["show", "m", "s"], &files)?, run(&["state", "m", "0", "s"], &files)?);
    assert_eq!((shown.status, shown.text, shown.out), (0, game.show(&state.bytes)?, Vec::new()));
    assert_eq!((stored.status, stored.out), (0, first.bytes));
    assert_eq!(run(&["play", "n"], &files)?.status, 11);
    hold(&game, &state.bytes)
}

/// The same match held: a game comes to the same state, and what is refused changes nothing.
fn hold(game: &Match, last: &[u8]) -> Result<(), Error> {
    let data = GAME.as_bytes();
    let mut held = Game::open(data)?;
    assert_eq!(held.play(r#"[[2,"resign"]]"#), Err(Error::Commands { item: 1 }));
    held.play(r#"[[1,"walk",[2],"6.5","2.5"]]"#)?;
    let mut other = Game::load(data, &held.state()?.bytes)?;
    assert_eq!((other.play_own(99)?, other.play_own(99)?, other.play("[]")), (game.facts.turns - 1, 0, Err(Error::Over)));
    assert_eq!((other.state()?.bytes, other.show()?, other.entities()?), (last.to_vec(), game.show(last)?, game.entities(last)?));
    assert_eq!((other.digest()?, held.digest()?.1), (game.digest(last)?, 1));
    assert!(matches!(Game::load(data, b"no state"), Err(Error::State { code: 1, second: false })));
    assert!(matches!(Client::open(data, 2, true), Err(Error::Player)) && matches!(Server::open(data, 2), Err(Error::Player)));
    let (mut client, mut server) = (Client::open(data, 1, false)?, Server::open(data, 0)?);
    assert_eq!((client.state(), client.order(r#"["resign"]"#)?, client.order("resign")), (Err(Error::NotOn), false, Err(Error::Commands { item: 0 })));
    assert_eq!((client.join()?, client.join()?, client.standing().stage), (true, false, JOINING));
    assert_eq!((server.hear(1, &client.take()?)?, server.hear(9, b"")?, server.hear(1, b"no frame")), (true, false, Err(Error::Frame)));
    assert_eq!((client.hear(b"no frame"), client.hear(&[2, 0, 0, 0, 6, 4])?, client.standing().stage), (Err(Error::Frame), true, OFF));
    Ok(())
}
