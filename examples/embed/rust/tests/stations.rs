//! Stations by hand: each kind of answer, what is no event, and bytes of chance.

use vk_station::{Access, Answer, Call, Destination, Error, Message, Pid, Pool, Process, Refusal, Scope, Settings, Station};

fn pid(host: u16, local: u16) -> Pid {
    Pid::new(host, local).unwrap()
}

fn stations() -> [Station; 2] {
    let processes = [pid(1, 1), pid(1, 2), pid(2, 1)].map(|pid| Process { pid, size: 1024 });
    [1, 2].map(|host| Station::open(&Settings::default(), &processes, host).unwrap())
}

/// Hands the frames of one station's last event to the other.
fn pass(from: &Station, to: &mut Station) -> Vec<Answer> {
    from.frames().map(|frame| to.deliver(&frame).unwrap()).collect()
}

#[test]
fn a_page_is_read_from_another_station() {
    let [mut one, mut two] = stations();
    let (client, server) = (pid(1, 1), pid(2, 1));
    let message = Message::from_prefix(&[0, 1]).granting(Access::Write, 512..1024);
    assert_eq!(two.call(server, &Call::ReceiveSegment { start: 0, count: 512 }), Ok(Answer::Begun));
    assert_eq!(one.call(client, &Call::Send { target: server, message }), Ok(Answer::Begun));
    assert_eq!(one.frames().len(), 1);
    assert_eq!(one.frames().next().unwrap().to(), Destination::Station(2));
    assert_eq!(pass(&one, &mut two), [Answer::Taken]);
    assert_eq!(two.collect(server), Ok(Answer::ReceivedSegment { from: client, message, count: 0 }));
    assert_eq!(two.call(server, &Call::Store { start: 0, bytes: &[7; 512] }), Ok(Answer::Done));
    let reply = Call::ReplySegment { to: client, message: Message::default(), dest: 512, src: 0, count: 512 };
    assert_eq!(two.call(server, &reply), Ok(Answer::Done));
    assert_eq!(pass(&two, &mut one), [Answer::Taken]);
    assert_eq!(one.collect(client), Ok(Answer::Replied { message: Message::default() }));
    assert_eq!(one.call(client, &Call::Load { start: 511, count: 3 }), Ok(Answer::Loaded { bytes: vec![0, 7, 7] }));
}

#[test]
fn bytes_are_moved_and_messages_forwarded() {
    let [mut one, mut two] = stations();
    let (client, helper, server) = (pid(2, 1), pid(1, 1), pid(1, 2));
    let message = Message::default().granting(Access::Both, 0..1024);
    one.call(server, &Call::Receive).unwrap();
    one.call(helper, &Call::Receive).unwrap();
    two.call(client, &Call::Send { target: helper, message }).unwrap();
    pass(&two, &mut one);
    one.collect(helper).unwrap();
    assert_eq!(one.call(helper, &Call::Forward { from: client, to: server, message }), Ok(Answer::Done));
    assert_eq!(one.collect(server), Ok(Answer::Received { from: client, message }));
    one.call(server, &Call::Store { start: 0, bytes: b"moved" }).unwrap();
    assert_eq!(one.call(server, &Call::MoveTo { partner: client, dest: 10, src: 0, count: 5 }), Ok(Answer::Begun));
    pass(&one, &mut two);
    pass(&two, &mut one);
    assert_eq!(one.collect(server), Ok(Answer::Done));
    assert_eq!(one.call(server, &Call::MoveFrom { partner: client, dest: 100, src: 12, count: 3 }), Ok(Answer::Begun));
    pass(&one, &mut two);
    pass(&two, &mut one);
    assert_eq!(one.collect(server), Ok(Answer::Done));
    assert_eq!(one.call(server, &Call::Load { start: 100, count: 3 }), Ok(Answer::Loaded { bytes: b"ved".to_vec() }));
}

#[test]
fn names_are_found_on_other_stations() {
    let [mut one, mut two] = stations();
    let server = pid(2, 1);
    assert_eq!(two.call(server, &Call::SetPid { logical: 5, pid: server, scope: Scope::Both }), Ok(Answer::Done));
    assert_eq!(one.call(pid(1, 1), &Call::GetPid { logical: 5, scope: Scope::Local }), Ok(Answer::Refused { why: Refusal::NotFound }));
    assert_eq!(one.call(pid(1, 1), &Call::GetPid { logical: 5, scope: Scope::Both }), Ok(Answer::Begun));
    assert_eq!(one.frames().next().unwrap().to(), Destination::Every);
    pass(&one, &mut two);
    pass(&two, &mut one);
    assert_eq!(one.collect(pid(1, 1)), Ok(Answer::Found { pid: server }));
}

#[test]
fn what_is_no_event_changes_nothing() {
    let [mut one, _] = stations();
    assert_eq!(one.call(pid(2, 1), &Call::Receive), Err(Error::NoSuchProcess));
    assert_eq!(one.collect(pid(1, 3)), Err(Error::NoSuchProcess));
    assert_eq!(one.call(pid(1, 1), &Call::Store { start: 0, bytes: &[0; 1025] }), Err(Error::TooManyBytes));
    assert_eq!((one.events(), one.now(), one.number()), (0, 0, 0));
    assert_eq!(one.tick(), Ok(Answer::Ticked { now: 1 }));
    assert_eq!((one.events(), one.now(), one.number()), (1, 1, 1));
    assert_eq!(one.collect(pid(1, 1)).unwrap().or_refusal(), Err(Refusal::NotYet));
}

#[test]
fn a_station_that_cannot_be_tells_why() {
    let settings = Settings::default();
    let process = |host, local| Process { pid: pid(host, local), size: 0 };
    let open = |processes: &[Process], host| Station::open(&settings, processes, host).map(|_| ());
    assert_eq!(open(&[process(1, 1)], 1), Ok(()));
    assert_eq!(open(&[process(1, 1)], 0), Err(Error::BadHost));
    assert_eq!(open(&[process(1, 2), process(1, 1)], 1), Err(Error::NotRising));
    assert_eq!(open(&[Process { size: 131_073, ..process(1, 1) }], 1), Err(Error::BadSize));
    assert_eq!(open(&(1..=17).map(|host| process(host, 1)).collect::<Vec<_>>(), 1), Err(Error::TooMany));
    let pooled = |pool| Station::open_with_pools(&settings, &[process(1, 1)], &[pool], 1).map(|_| ());
    assert_eq!(pooled(Pool { host: 1, slots: 64 }), Ok(()));
    assert_eq!(pooled(Pool { host: 1, slots: 65 }), Err(Error::BadPool));
    assert_eq!(pooled(Pool { host: 2, slots: 1 }), Err(Error::NoSuchStation));
    let bad = Settings { tries: 17, ..settings };
    assert_eq!(Station::open(&bad, &[process(1, 1)], 1).map(|_| ()), Err(Error::BadTimes));
}

/// Whatever bytes come, they are answered, and the station goes on.
#[test]
fn bytes_of_chance_are_taken_or_dropped() {
    let [mut one, mut two] = stations();
    let mut state = 1_u64;
    let mut chance = move |below: usize| {
        state = state.wrapping_mul(6_364_136_223_846_793_005).wrapping_add(1_442_695_040_888_963_407);
        (state >> 33) as usize % below
    };
    let mut frames = Vec::new();
    for _ in 0..20_000 {
        let message = Message::from_prefix(&[0, chance(256) as u8]);
        let call = match chance(4) {
            0 => Call::Send { target: pid(2, 1), message },
            1 => Call::Reply { to: pid(2, 1), message },
            2 => Call::Receive,
            _ => Call::GetPid { logical: 1, scope: Scope::Both },
        };
        one.call(pid(1, 1), &call).unwrap();
        one.collect(pid(1, 1)).unwrap();
        frames.extend(one.frames().map(|frame| frame.to_vec()));
        if !frames.is_empty() {
            let at = chance(frames.len());
            let (byte, bit) = (chance(frames[at].len()), chance(8));
            if chance(2) == 0 {
                frames[at][byte] ^= 1 << bit;
            }
            two.deliver(&frames[at]).unwrap();
            frames.extend(two.frames().map(|frame| frame.to_vec()));
            frames.truncate(64);
        }
        two.call(pid(2, 1), &Call::Receive).unwrap();
        two.collect(pid(2, 1)).unwrap();
        two.tick().unwrap();
        one.tick().unwrap();
    }
    assert_eq!(one.now(), 20_000);
}
