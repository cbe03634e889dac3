//! Packets in which an ID stands twice: a fault if it is one of the table's, none if it is
//! skipped. The first fault from the front is the one that is told, so the others come with
//! it: before the second field, at it and behind it.

use super::dice::Dice;
use super::parcel::{
    any_skipped, any_tabled, bad_content, further_id, high, required, sound_field, wrong_length,
    Parcel, Raw, LISTED, TABLED,
};

/// What is special about the two fields, or comes with them.
#[derive(Clone, Copy, PartialEq, Eq)]
enum Company {
    Nothing,
    Third,
    FirstAtFault,
    EarlierFault,
    EarlierOverrun,
    SecondAtFault,
    SecondOverruns,
    /// The second stands in the content of a field that is skipped, and so is none.
    SecondInside,
    /// The second has another ID, a skipped one that is alike in its lower bits.
    SecondAlike,
    LaterFault,
    LaterOverrun,
    Missing,
}

const COMPANY: [(usize, Company); 12] = [
    (5, Company::Nothing),
    (2, Company::Third),
    (2, Company::FirstAtFault),
    (4, Company::EarlierFault),
    (2, Company::EarlierOverrun),
    (4, Company::SecondAtFault),
    (3, Company::SecondOverruns),
    (1, Company::SecondInside),
    (1, Company::SecondAlike),
    (4, Company::LaterFault),
    (2, Company::LaterOverrun),
    (3, Company::Missing),
];

/// A packet with two fields of one ID.
pub fn packet(dice: &mut Dice, ssrc: u32) -> Vec<u8> {
    let company = dice.by_weight(&COMPANY).unwrap_or(Company::Nothing);
    // A field that is skipped cannot be at fault itself.
    let at_fault = matches!(company, Company::FirstAtFault | Company::SecondAtFault);
    let id = if at_fault || dice.chance(60) {
        any_tabled(dice)
    } else {
        any_skipped(dice)
    };
    let beside = beside(dice, company, id);
    let mut parcel = around(dice, company, ssrc, id, beside.as_ref());
    let fields = &mut parcel.fields;

    let first = match company {
        Company::FirstAtFault => faulty_field(dice, id),
        _ => short_field(dice, id),
    };
    let place = dice.between(0, fields.len());
    fields.insert(place, first);
    let second = dice.between(place + 1, fields.len());
    let field = second_field(dice, company, id);
    fields.insert(second, field);
    if company == Company::SecondOverruns {
        let_run_past_the_end(dice, fields, second);
    }
    if let Some(field) = beside {
        let place = match company {
            Company::EarlierFault | Company::EarlierOverrun => dice.between(0, second),
            _ => dice.between(second + 1, fields.len()),
        };
        fields.insert(place, field);
        if matches!(company, Company::EarlierOverrun | Company::LaterOverrun) {
            let_run_past_the_end(dice, fields, place);
        }
    }
    parcel.octets(dice)
}

/// The field beside the two that their company is about, if it is about one.
fn beside(dice: &mut Dice, company: Company, id: u8) -> Option<Raw> {
    match company {
        Company::EarlierFault | Company::LaterFault => Some(fault_beside(dice, id)),
        Company::EarlierOverrun | Company::LaterOverrun => {
            let id = further_id(dice, &[]);
            Some(short_field(dice, id))
        }
        Company::Third if dice.chance(50) => Some(faulty_field(dice, id)),
        Company::Third => Some(short_field(dice, id)),
        _ => None,
    }
}

/// The packet but for the two fields and the one beside them.
fn around(dice: &mut Dice, company: Company, ssrc: u32, id: u8, beside: Option<&Raw>) -> Parcel {
    let lacks_one = company == Company::Missing;
    let needs_another = |kind: u8| required(kind).iter().any(|&needed| needed != id);
    let mut kinds = LISTED.to_vec();
    kinds.retain(|&kind| !lacks_one || needs_another(kind));
    let mut parcel = Parcel::new(dice.pick(&kinds).unwrap_or(0), ssrc);
    parcel.ack = dice.chance(25);
    let mut needed = required(parcel.kind).to_vec();
    needed.retain(|&needed| needed != id);
    let missing = dice.pick(&needed).filter(|_| lacks_one);
    // Any of these would be one more fault, or would mend the one there is to be.
    let left_out = [Some(id), beside.map(|field| field.id), missing];
    for needed in needed {
        if !left_out.contains(&Some(needed)) {
            parcel.fields.push(short_field(dice, needed));
        }
    }
    for _ in 0..dice.below(3) {
        let further = further_id(dice, &parcel.fields);
        if !left_out.contains(&Some(further)) {
            parcel.fields.push(short_field(dice, further));
        }
    }
    dice.shuffle(&mut parcel.fields);
    parcel
}

fn second_field(dice: &mut Dice, company: Company, id: u8) -> Raw {
    let field = short_field(dice, id);
    match company {
        Company::SecondAtFault => faulty_field(dice, id),
        Company::SecondInside => {
            // Behind two octets it stands at a word, where fields begin.
            let mut content = dice.octets(2);
            content.extend([field.id, field.claim]);
            content.extend(field.content);
            Raw::new(any_skipped(dice), content)
        }
        Company::SecondAlike => {
            let alike = id % 16 + dice.any_of([16, 32, 64, 128]);
            short_field(dice, alike)
        }
        _ => field,
    }
}

/// A field in order that leaves a claim of up to 255 octets before it free to run past the end.
fn short_field(dice: &mut Dice, id: u8) -> Raw {
    let mut content = sound_field(dice, id).content;
    content.truncate(30);
    Raw::new(id, content)
}

/// A field of this ID with a wrong length, or with a wrong content where it can have one. A
/// skipped one is in order all the same.
fn faulty_field(dice: &mut Dice, id: u8) -> Raw {
    match id {
        5 | 10 if dice.chance(50) => bad_content(dice, id),
        _ if TABLED.contains(&id) => wrong_length(dice, id),
        _ => short_field(dice, id),
    }
}

/// A field at fault that has another ID.
fn fault_beside(dice: &mut Dice, id: u8) -> Raw {
    match dice.below(3) {
        0 => high(dice),
        1 => {
            let other = other_than(dice, id, &[5, 10]);
            bad_content(dice, other)
        }
        _ => {
            let other = other_than(dice, id, &TABLED);
            wrong_length(dice, other)
        }
    }
}

fn other_than(dice: &mut Dice, id: u8, ids: &[u8]) -> u8 {
    let mut others = ids.to_vec();
    others.retain(|&other| other != id);
    dice.pick(&others).unwrap_or(id)
}

/// Lets the field at this place claim more octets than there are, by one or by many. It has
/// two of its own, so that a reader who goes on all the same finds the next field.
fn let_run_past_the_end(dice: &mut Dice, fields: &mut [Raw], place: usize) {
    let behind: usize = fields[place + 1..].iter().map(Raw::size).sum();
    let fewest = behind + 3;
    fields[place].content = dice.octets(2);
    fields[place].claim = dice.any_of([fewest, 255]) as u8;
}
