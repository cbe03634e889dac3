//! The packet: reading and writing (document 01, "The packet" and "What is answered to
//! packets"; document 02, #107).

use crate::refusal::Refusal;
use crate::slices;

pub const HEADER: usize = 12;
pub const LONGEST_PACKET: usize = 1024;
pub const LONGEST_IDENTITY: usize = 62;

const APPLICATION: u8 = 204;
const MCPT: [u8; 4] = *b"MCPT";
const ACK_BIT: u8 = 0b1_0000;

/// One more than the greatest ID of a field that a message can have.
const IDS: usize = 15;

/// The type of a message, numbered as in the low four bits of the subtype.
#[derive(Clone, Copy, Debug, PartialEq, Eq)]
#[repr(u8)]
pub enum Kind {
    Request = 0,
    Granted = 1,
    Taken = 2,
    Deny = 3,
    Release = 4,
    Idle = 5,
    Revoke = 6,
    PositionRequest = 8,
    PositionInfo = 9,
    Ack = 10,
}

impl Kind {
    pub const ALL: [Kind; 10] = [
        Kind::Request,
        Kind::Granted,
        Kind::Taken,
        Kind::Deny,
        Kind::Release,
        Kind::Idle,
        Kind::Revoke,
        Kind::PositionRequest,
        Kind::PositionInfo,
        Kind::Ack,
    ];

    pub fn number(self) -> u8 {
        self as u8
    }

    pub fn numbered(number: u8) -> Option<Kind> {
        Kind::ALL.into_iter().find(|kind| kind.number() == number)
    }

    /// The IDs of the fields that a message of this type cannot do without.
    pub fn required(self) -> &'static [u8] {
        match self {
            Kind::Granted => &[1],
            Kind::Taken => &[4],
            Kind::Deny | Kind::Revoke => &[2],
            Kind::Idle => &[8],
            Kind::PositionInfo => &[3],
            Kind::Ack => &[10, 12],
            Kind::Request | Kind::Release | Kind::PositionRequest => &[],
        }
    }
}

/// A field of a message. Identities and phrases are parts of the octets that were lent.
#[derive(Clone, Copy, Debug, PartialEq, Eq)]
pub enum Field<'a> {
    Priority(u8),
    Duration(u16),
    Cause { cause: u16, phrase: &'a [u8] },
    Queue { position: u8, priority: u8 },
    GrantedParty(&'a [u8]),
    Permission(u16),
    User(&'a [u8]),
    Sequence(u16),
    Source(u16),
    MessageType(u8),
    Indicator(u16),
    Ssrc(u32),
}

impl<'a> Field<'a> {
    pub fn id(&self) -> u8 {
        match self {
            Field::Priority(_) => 0,
            Field::Duration(_) => 1,
            Field::Cause { .. } => 2,
            Field::Queue { .. } => 3,
            Field::GrantedParty(_) => 4,
            Field::Permission(_) => 5,
            Field::User(_) => 6,
            Field::Sequence(_) => 8,
            Field::Source(_) => 10,
            Field::MessageType(_) => 12,
            Field::Indicator(_) => 13,
            Field::Ssrc(_) => 14,
        }
    }

    /// Weighs the content of a field below 192. `None` is a field that is skipped.
    fn weigh(id: u8, content: &'a [u8]) -> Result<Option<Field<'a>>, Refusal> {
        let field = match (id, content) {
            (0, &[priority, _spare]) => Field::Priority(priority),
            (1, &[high, low]) => Field::Duration(pair(high, low)),
            (2, &[high, low, ref phrase @ ..]) => Field::Cause {
                cause: pair(high, low),
                phrase,
            },
            (3, &[position, priority]) => Field::Queue { position, priority },
            (4, identity) if is_identity(identity) => Field::GrantedParty(identity),
            (5, &[0, permission @ 0..=1]) => Field::Permission(permission.into()),
            (6, identity) if is_identity(identity) => Field::User(identity),
            (8, &[high, low]) => Field::Sequence(pair(high, low)),
            (10, &[0, source @ 0..=3]) => Field::Source(source.into()),
            (12, &[kind, _spare]) => Field::MessageType(kind),
            (13, &[high, low]) => Field::Indicator(pair(high, low)),
            (14, &[a, b, c, d, _, _]) => Field::Ssrc(u32::from_be_bytes([a, b, c, d])),
            (0..=6 | 8 | 10 | 12..=14, _) => return Err(Refusal::FieldAtFault),
            _ => return Ok(None),
        };
        Ok(Some(field))
    }

    /// The content as the writer puts it, spare octets zero.
    fn content(&self) -> Vec<u8> {
        match *self {
            Field::Priority(octet) | Field::MessageType(octet) => vec![octet, 0],
            Field::Duration(number)
            | Field::Permission(number)
            | Field::Sequence(number)
            | Field::Source(number)
            | Field::Indicator(number) => number.to_be_bytes().to_vec(),
            Field::Cause { cause, phrase } => [&cause.to_be_bytes(), phrase].concat(),
            Field::Queue { position, priority } => vec![position, priority],
            Field::GrantedParty(identity) | Field::User(identity) => identity.to_vec(),
            Field::Ssrc(ssrc) => [&ssrc.to_be_bytes()[..], &[0, 0]].concat(),
        }
    }

    /// Puts the field at the end of a packet, unless no reader would take it.
    fn put(&self, packet: &mut Vec<u8>) -> Result<(), Refusal> {
        let content = self.content();
        let length = u8::try_from(content.len()).map_err(|_| Refusal::NoReaderWouldAccept)?;
        // The reader's own judgement is the only rule for what can be written.
        if Field::weigh(self.id(), &content) != Ok(Some(*self)) {
            return Err(Refusal::NoReaderWouldAccept);
        }
        packet.extend([self.id(), length]);
        packet.extend(&content);
        packet.resize(whole_words(packet.len()), 0);
        Ok(())
    }
}

pub fn is_identity(octets: &[u8]) -> bool {
    (1..=LONGEST_IDENTITY).contains(&octets.len())
}

/// A length with the padding that takes it to a multiple of four.
fn whole_words(length: usize) -> usize {
    (length + 3) / 4 * 4
}

fn pair(high: u8, low: u8) -> u16 {
    u16::from_be_bytes([high, low])
}

/// Rests on the fields of a packet and hands them out from front to back, as they stand
/// there. It ends at the end of the packet or after the first that cannot be handed out.
pub struct Unpacking<'a> {
    rest: &'a [u8],
}

impl<'a> Unpacking<'a> {
    /// Unpacks octets that are nothing but fields.
    pub fn of(fields: &'a [u8]) -> Unpacking<'a> {
        Unpacking { rest: fields }
    }

    fn take(&mut self, id: u8, length: u8) -> Result<(u8, &'a [u8]), Refusal> {
        // An ID so high is at fault whether or not its field fits.
        if id >= 192 {
            return Err(Refusal::FieldAtFault);
        }
        let end = 2 + usize::from(length);
        let content = self.rest.get(2..end).ok_or(Refusal::FieldPastTheEnd)?;
        let after = self.rest.get(whole_words(end)..);
        self.rest = after.ok_or(Refusal::FieldPastTheEnd)?;
        Ok((id, content))
    }
}

impl<'a> Iterator for Unpacking<'a> {
    /// The ID of a field, below 192, and its content; or the fault.
    type Item = Result<(u8, &'a [u8]), Refusal>;

    fn next(&mut self) -> Option<Self::Item> {
        let step = match *self.rest {
            [] => return None,
            [_] => Err(Refusal::FieldPastTheEnd),
            [id, length, ..] => self.take(id, length),
        };
        if step.is_err() {
            self.rest = &[];
        }
        Some(step)
    }
}

/// What a packet says: its type, Ack bit, SSRC and fields.
#[derive(Clone, Copy, Debug, PartialEq, Eq)]
pub struct Message<'a> {
    pub kind: Kind,
    pub wants_ack: bool,
    pub ssrc: u32,
    /// Each field rests at the place of its own ID.
    fields: [Option<Field<'a>>; IDS],
}

impl<'a> Message<'a> {
    pub fn new(kind: Kind, ssrc: u32) -> Message<'a> {
        Message {
            kind,
            wants_ack: false,
            ssrc,
            fields: [None; IDS],
        }
    }

    /// The same message, but that this is its field of that ID. It has one of each at most.
    pub fn with(mut self, field: Field<'a>) -> Message<'a> {
        if let Some(place) = self.fields.get_mut(usize::from(field.id())) {
            *place = Some(field);
        }
        self
    }

    /// The fields it has, by ascending ID.
    pub fn fields(&self) -> impl Iterator<Item = &Field<'a>> {
        self.fields.iter().flatten()
    }

    pub fn field(&self, id: u8) -> Option<&Field<'a>> {
        self.fields.get(usize::from(id))?.as_ref()
    }

    /// The priority that a Floor Priority field names, if there is one. What a message without
    /// it asks for is not the packet's to say.
    pub fn asked(&self) -> Option<u8> {
        match self.field(0) {
            Some(&Field::Priority(priority)) => Some(priority),
            _ => None,
        }
    }

    fn is_complete(&self) -> bool {
        self.kind
            .required()
            .iter()
            .all(|&id| self.field(id).is_some())
    }

    /// Reads a packet. The checks run in the order of the paper's table, with 14 between 9
    /// and 10 of each field.
    pub fn read(packet: &'a [u8]) -> Result<Message<'a>, Refusal> {
        if packet.len() > LONGEST_PACKET {
            return Err(Refusal::PacketTooLong);
        }
        let (header, fields) = slices::leading(packet).ok_or(Refusal::PacketTooShort)?;
        let mut message = read_header(header, packet.len())?;
        for step in Unpacking::of(fields) {
            let (id, content) = step?;
            // What is skipped is in no message, so this is about the table's IDs alone.
            if message.field(id).is_some() {
                return Err(Refusal::FieldTwice);
            }
            if let Some(field) = Field::weigh(id, content)? {
                message = message.with(field);
            }
        }
        if !message.is_complete() {
            return Err(Refusal::FieldMissing);
        }
        Ok(message)
    }

    /// The packet that says this, in octets of its own.
    pub fn to_octets(&self) -> Result<Vec<u8>, Refusal> {
        if !self.is_complete() {
            return Err(Refusal::NoReaderWouldAccept);
        }
        let mut packet = self.header().to_vec();
        for field in self.fields() {
            field.put(&mut packet)?;
        }
        let words = u16::try_from(packet.len() / 4 - 1);
        let words = words.map_err(|_| Refusal::NoReaderWouldAccept)?;
        packet[2..4].copy_from_slice(&words.to_be_bytes());
        Ok(packet)
    }

    /// Writes the packet to the front of the lent room and says how long it is.
    pub fn write(&self, room: &mut [u8]) -> Result<usize, Refusal> {
        let packet = self.to_octets()?;
        let front = room.get_mut(..packet.len());
        let front = front.ok_or(Refusal::RoomTooShort)?;
        front.copy_from_slice(&packet);
        Ok(packet.len())
    }

    /// The first 12 octets, the length word still zero.
    fn header(&self) -> [u8; HEADER] {
        let ack = if self.wants_ack { ACK_BIT } else { 0 };
        let [a, b, c, d] = self.ssrc.to_be_bytes();
        let [m, n, o, p] = MCPT;
        [
            0b1000_0000 | ack | self.kind.number(),
            APPLICATION,
            0,
            0,
            a,
            b,
            c,
            d,
            m,
            n,
            o,
            p,
        ]
    }
}

/// Checks 3 to 8.
fn read_header<'a>(header: &[u8; HEADER], lent: usize) -> Result<Message<'a>, Refusal> {
    let [first, packet_type, high, low, a, b, c, d, name @ ..] = *header;
    if first >> 6 != 2 {
        return Err(Refusal::WrongVersion);
    }
    if first & 0b10_0000 != 0 {
        return Err(Refusal::PaddingBitSet);
    }
    if packet_type != APPLICATION {
        return Err(Refusal::NotApplicationPacket);
    }
    if 4 * (usize::from(pair(high, low)) + 1) != lent {
        return Err(Refusal::WrongLengthWord);
    }
    if name != MCPT {
        return Err(Refusal::WrongName);
    }
    let kind = Kind::numbered(first & 0b1111).ok_or(Refusal::TypeNotListed)?;
    let mut message = Message::new(kind, u32::from_be_bytes([a, b, c, d]));
    message.wants_ack = first & ACK_BIT != 0;
    Ok(message)
}
