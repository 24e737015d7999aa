// A caller in Rust: the same key from two agents, a key that one adopts from the other, and calls that are refused.
// Prints "ok".
#[repr(C)]
#[derive(Default)]
struct Agent {
    at: usize,
    live: u32,
}

#[repr(C)]
struct Size {
    ids: u32,
    words: u32,
    slots: u32,
}

#[repr(C)]
struct Answer {
    status: u32,
    id: u32,
    at: u32,
    want: u32,
    end: u32,
}

#[repr(C)]
struct Number {
    status: u32,
    value: u32,
}

const DONE: u32 = 0;
const BAD_ARGUMENT: u32 = 9;

unsafe extern "C" {
    fn jsstr_make(size: Size, agents: u32, limit: u32, out: &mut Agent) -> u32;
    fn jsstr_free(agent: &mut Agent) -> u32;
    fn jsstr_split(agent: &mut Agent, give: u32, out: &mut Agent) -> u32;
    fn jsstr_join(agent: &mut Agent, other: &mut Agent) -> u32;
    fn jsstr_from_bytes(agent: &mut Agent, encoding: u32, bytes: *const u8, len: usize) -> Answer;
    fn jsstr_concat(agent: &mut Agent, a: u32, b: u32) -> Answer;
    fn jsstr_length(agent: &mut Agent, s: u32) -> Number;
    fn jsstr_read(agent: &mut Agent, s: u32, from: u32, out: *mut u16, len: usize) -> u32;
    fn jsstr_intern(agent: &mut Agent, s: u32) -> Answer;
    fn jsstr_slot_of(agent: &mut Agent, s: u32) -> Number;
    fn jsstr_adopt(agent: &mut Agent, slot: u32) -> Answer;
}

const JSSTR_UTF8: u32 = 1;

fn made(agent: &mut Agent, text: &str) -> u32 {
    let s = unsafe { jsstr_from_bytes(agent, JSSTR_UTF8, text.as_ptr(), text.len()) };
    assert_eq!(s.status, DONE);
    s.id
}

fn interned(agent: &mut Agent) -> u32 {
    let (left, right) = (made(agent, "key "), made(agent, "of two agents: \u{1F600}"));
    let all = unsafe { jsstr_concat(agent, left, right) };
    assert_eq!((all.status, all.at, all.want, all.end), (DONE, 0, 0, 0));
    let key = unsafe { jsstr_intern(agent, all.id) };
    assert_eq!(key.status, DONE);
    key.id
}

fn main() {
    let (mut first, mut second) = (Agent::default(), Agent::default());
    let size = Size { ids: 100, words: 100, slots: 16 };
    unsafe {
        assert_eq!(jsstr_length(&mut first, 0).status, BAD_ARGUMENT);
        assert_eq!(jsstr_make(size, 2, 1000, &mut first), DONE);
        assert_eq!(jsstr_split(&mut first, 1, &mut second), DONE);
    }
    let mut second = std::thread::spawn(move || {
        let key = interned(&mut second);
        let slot = unsafe { jsstr_slot_of(&mut second, key) };
        assert_eq!(slot.status, DONE);
        (second, key, slot.value)
    })
    .join()
    .unwrap();
    let adopted = unsafe { jsstr_adopt(&mut first, second.2) };
    assert_eq!((adopted.status, adopted.id), (DONE, second.1));
    let key = interned(&mut first);
    assert_eq!(key, second.1);
    let mut units = vec![0u16; 21];
    unsafe {
        assert_eq!(jsstr_length(&mut first, key).value, 21);
        assert_eq!(jsstr_read(&mut first, key, 1, units.as_mut_ptr(), 21), BAD_ARGUMENT);
        assert_eq!(jsstr_read(&mut first, key, 0, units.as_mut_ptr(), 21), DONE);
        assert_eq!(jsstr_join(&mut second.0, &mut first), BAD_ARGUMENT);
        assert_eq!(jsstr_join(&mut first, &mut second.0), DONE);
        assert_eq!(jsstr_free(&mut first), DONE);
        assert_eq!(jsstr_free(&mut second.0), BAD_ARGUMENT);
    }
    assert_eq!(String::from_utf16(&units).unwrap(), "key of two agents: \u{1F600}");
    println!("ok");
}
