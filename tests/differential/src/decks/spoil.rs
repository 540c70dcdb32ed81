//! Ways to spoil a deck. Most leave all of it right but for one card.

use super::draft::{Card, Draft, Planned};
use super::operands::{any_kind, instruction};
use super::programs::{name, write};
use crate::random::Random;
use model::assemble::{assemble, WORK};

/// Spoils the draft of a deck, which has at least START and END.
pub type Spoil = fn(&mut Random, &mut Draft);

/// The ways, each with how often it is taken.
pub const SPOILS: [(usize, (&str, Spoil)); 24] = [
    (14, ("a wrong operand", wrong_operand)),
    (16, ("a refusal of pass two", refusal_of_pass_two)),
    (5, ("a changed character", changed_character)),
    (3, ("an inserted character", inserted_character)),
    (3, ("a removed character", removed_character)),
    (5, ("an operand not of its form", misformed)),
    (2, ("a bad name", bad_name)),
    (3, ("another name", another_name)),
    (3, ("a name put or left out", name_put_or_left_out)),
    (3, ("a name twice", name_twice)),
    (1, ("an unknown operation", unknown_operation)),
    (2, ("another operation", another_operation)),
    (2, ("an operand of another card", another_operand)),
    (2, ("a card left out", card_left_out)),
    (2, ("a card twice", card_twice)),
    (2, ("cards exchanged", cards_exchanged)),
    (1, ("another START", another_start)),
    (1, ("a card behind END", card_behind_end)),
    (4, ("a high start", high_start)),
    (1, ("a blank card", blank_card)),
    (2, ("no END", no_end)),
    (4, ("a high start and wrong data", high_start_and_wrong_data)),
    (2, ("the counter at 65536", counter_at_the_end)),
    (3, ("a displacement from a base", displacement_from_base)),
];

/// Any card of the deck but a comment.
fn statement<'a>(random: &mut Random, draft: &'a mut Draft) -> &'a mut Card {
    let at = statement_place(random, draft);
    &mut draft.cards[at]
}

fn statement_place(random: &mut Random, draft: &Draft) -> usize {
    let places: Vec<usize> =
        (0..draft.cards.len()).filter(|&at| draft.cards[at].whole.is_none()).collect();
    places[random.below(places.len())]
}

fn wrong_operand(random: &mut Random, draft: &mut Draft) {
    let at = statement_place(random, draft);
    let wild = random.pick(&[1, 2, 2, 3, 4]);
    write(random, draft, at, wild);
}

/// Looks for a wrong operand, on a card put in, that gives a number chosen before.
fn refusal_of_pass_two(random: &mut Random, draft: &mut Draft) {
    let number = random.pick(&[18, 19, 19, 20, 21, 21, 22, 23, 23]);
    let first = draft.behind_start();
    let at = random.within(first..=first.max(draft.cards.len() - 1));
    draft.insert(at, Card::of(any_kind(random)));
    for _ in 0..20 {
        let wild = random.pick(&[2, 3, 4]);
        write(random, draft, at, wild);
        let source = draft.punched().concat();
        let answer = assemble(draft.width as u32, &source, WORK, usize::MAX);
        if answer.is_err_and(|refusal| refusal.number == number) {
            return;
        }
    }
}

/// Characters that change the form of an operand, most of them.
const CHARACTERS: &[u8] = b"'''(((),,,**++--0019AABCDLXZ$ .";

fn character(random: &mut Random) -> char {
    char::from(random.pick(CHARACTERS))
}

fn changed_character(random: &mut Random, draft: &mut Draft) {
    let character = character(random).to_string();
    replace_character(random, draft, &character);
}

fn removed_character(random: &mut Random, draft: &mut Draft) {
    replace_character(random, draft, "");
}

fn replace_character(random: &mut Random, draft: &mut Draft, by: &str) {
    let operand = &mut statement(random, draft).operand;
    if !operand.is_empty() {
        let at = random.below(operand.len());
        operand.replace_range(at..at + 1, by);
    }
}

fn inserted_character(random: &mut Random, draft: &mut Draft) {
    let character = character(random);
    let operand = &mut statement(random, draft).operand;
    let at = random.within(0..=operand.len());
    operand.insert(at, character);
}

fn misformed(random: &mut Random, draft: &mut Draft) {
    let card = statement(random, draft);
    let operand = card.operand.clone();
    let (head, tail) = operand.split_once(',').unwrap_or((&operand, "1"));
    card.operand = match random.below(15) {
        0 => String::new(),
        1 => format!("{operand},"),
        2 => format!(",{operand}"),
        3 => format!("{operand},1"),
        4 => format!("{operand}(1)"),
        5 => format!("{operand}()"),
        6 => format!("{head}(1,1),{tail}"),
        7 => format!("{head}(1),{tail}(1)"),
        8 => format!("{head}(,),{tail}"),
        9 => format!("{head}(1,),{tail}"),
        10 => format!("-{operand}"),
        11 => format!("{operand}+"),
        12 => format!("({operand})"),
        13 => operand.replace(['(', ')'], ""),
        _ => head.to_string(),
    };
}

fn bad_name(random: &mut Random, draft: &mut Draft) {
    let bad = ["1", "9A", "A+B", "A.", "ABCDEFG", "'", "-", "A*", "TOOLONGNAME", "_A"];
    statement(random, draft).name = random.pick(&bad).to_string();
}

fn another_name(random: &mut Random, draft: &mut Draft) {
    let name = name(random);
    let card = statement(random, draft);
    if !card.name.is_empty() {
        card.name = name;
    }
}

fn name_put_or_left_out(random: &mut Random, draft: &mut Draft) {
    let name = name(random);
    let card = statement(random, draft);
    card.name = if card.name.is_empty() { name } else { String::new() };
}

fn name_twice(random: &mut Random, draft: &mut Draft) {
    if !draft.names.is_empty() {
        let name = draft.names[random.below(draft.names.len())].name.clone();
        statement(random, draft).name = name;
    }
}

fn unknown_operation(random: &mut Random, draft: &mut Draft) {
    let unknown =
        ["TITLE", "HPL", "SIO", "SVC", "EXTRN", "NOP", "BX", "JNT", "MVCX", "*", ",", "'", "0"];
    statement(random, draft).operation = random.pick(&unknown).to_string();
}

fn another_operation(random: &mut Random, draft: &mut Draft) {
    let others = ["EQU", "ORG", "DC", "DS", "USING", "DROP", "END", "START"];
    let operation = if random.one_in(3) { random.pick(&others) } else { instruction(random) };
    statement(random, draft).operation = operation.to_string();
}

fn another_operand(random: &mut Random, draft: &mut Draft) {
    let operand = statement(random, draft).operand.clone();
    statement(random, draft).operand = operand;
}

fn card_left_out(random: &mut Random, draft: &mut Draft) {
    let at = random.below(draft.cards.len());
    draft.cards.remove(at);
}

fn card_twice(random: &mut Random, draft: &mut Draft) {
    let card = statement(random, draft).clone();
    let at = random.within(0..=draft.cards.len());
    draft.insert(at, card);
}

fn cards_exchanged(random: &mut Random, draft: &mut Draft) {
    let count = draft.cards.len();
    draft.cards.swap(random.below(count), random.below(count));
}

fn another_start(random: &mut Random, draft: &mut Draft) {
    let at = random.within(0..=draft.cards.len());
    draft.insert(at, Card::of("START"));
}

fn card_behind_end(random: &mut Random, draft: &mut Draft) {
    let behind = ["", "* BEHIND", " DS C", " END", "x", "1 FOO )"];
    draft.cards.push(Card::whole(random.pick(&behind)));
}

/// Starts so high that the counter or a name passes the end of storage.
fn high_start(random: &mut Random, draft: &mut Draft) {
    let back = random.pick(&[1, 2, 3, 4, 6, 10, 20, 60, 300]);
    let start = format!("{}", 65_536 - back);
    let is_start = |card: &&mut Card| card.operation == "START";
    draft.cards.iter_mut().filter(is_start).for_each(|card| card.operand = start.clone());
}

/// Starts high, and has a wrong DC or DS with a name on the first card behind START.
fn high_start_and_wrong_data(random: &mut Random, draft: &mut Draft) {
    high_start(random, draft);
    let card = Card { name: name(random), ..Card::of(random.pick(&["DC", "DS"])) };
    let at = draft.behind_start();
    draft.insert(at, card);
    let wild = random.pick(&[1, 2, 3]);
    write(random, draft, at, wild);
}

/// Fills storage to its end, and goes on with cards that use the counter there.
fn counter_at_the_end(random: &mut Random, draft: &mut Draft) {
    let cards = [
        "A EQU *-1",
        "A EQU *",
        "A EQU *-*",
        " USING *-1,1",
        " USING *,2",
        " DS 0C",
        "A DS 0C",
        "B DS 0CL2",
        " DC 0C'A'",
        " DC 0A(*)",
        " DC 0A(*-1)",
        " ORG *-1",
        " ORG *",
        " DROP 1",
        "A J *",
        " DC C'A'",
        " MVI 5,0",
    ];
    let ends = [" END", " END *", " END *-1"];
    let last = random.pick(&[0, 1, 255]);
    let mut texts = vec![format!("P START {}", 65_535 - last), format!(" DS CL{}", last + 1)];
    texts.extend((0..random.within(1..=3)).map(|_| random.pick(&cards).to_string()));
    texts.push(random.pick(&ends).to_string());
    draft.cards = texts.iter().map(|text| Card::whole(text)).collect();
}

/// Puts in a base and a displacement from it, often just in or out of reach.
fn displacement_from_base(random: &mut Random, draft: &mut Draft) {
    let relocatable: Vec<&Planned> =
        draft.names.iter().filter(|name| name.absolute.is_none()).collect();
    if relocatable.is_empty() {
        return;
    }
    let name = &relocatable[random.below(relocatable.len())].name;
    let base = random.pick(&[1, 10, 300, 65_400]);
    let far = random.pick(&[base - 1, base, base + 1, base + 255, base + 256, 0, 5]);
    let register = random.within(1..=2);
    let other = 3 - register;
    let between = [
        format!(" DROP {register}"),
        format!(" DROP {other}"),
        format!(" USING {base},{register}"),
        format!(" USING {name},{other}"),
    ];
    let mut texts = vec![format!(" USING {name}+{base},{register}")];
    if random.one_in(2) {
        texts.push(between[random.below(between.len())].clone());
    }
    texts.push(format!(" MVI {name}+{far}({register}),0"));
    let end = draft.cards.len() - 1;
    let cards: Vec<Card> = texts.iter().map(|text| Card::whole(text)).collect();
    draft.cards.splice(end..end, cards);
}

fn no_end(_: &mut Random, draft: &mut Draft) {
    draft.cards.retain(|card| card.operation != "END");
}

fn blank_card(random: &mut Random, draft: &mut Draft) {
    let at = random.within(0..=draft.cards.len());
    draft.insert(at, Card::whole(""));
}
