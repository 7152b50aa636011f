//! Lists of calls: the whole file is read into calls, the calls are run from the fresh state, and the answer is copied once.
//! Whatever is refused is refused before the answer buffer is touched.

use crate::kernel::{Answer, Kernel, FOREVER};
use crate::services::*;

pub const LONGEST_FILE: usize = 65_536;
const HEADER: &[u8] = b"ctx,service,a,b,c";
const FOURTH: &[u8] = b",d"; // a header may go on so: then every line has a field more
const ENDLESS: &[u8] = b"forever"; // a timeout may be written so, and no other number
const ANSWER_HEADER: &[u8] = b"n,code,running\r\n";
const SHORTEST_LINE: usize = 18; // T,tn_task_exit,,, and its line end
const LONGEST_ROW: usize = 12; // 3639,-1,24 and its line end

/// Bytes written, or -1 for a file too long, -(10 + line) for the first unreadable line, -2 for a short buffer.
pub fn run_list(file: &[u8], answer: &mut [u8]) -> i64 {
    if file.len() > LONGEST_FILE {
        return -1;
    }
    let calls = match read_list(file) {
        Ok(calls) => calls,
        Err(line) => return -(10 + line as i64),
    };
    let rows = run_calls(&calls);
    match answer.get_mut(..rows.len()) {
        None => -2,
        Some(place) => {
            place.copy_from_slice(&rows);
            rows.len() as i64
        }
    }
}

/// The calls of a file, or the number of the first line that can't be read.
pub fn read_list(file: &[u8]) -> Result<Vec<Call>, usize> {
    let rest = file.strip_prefix(HEADER).ok_or(1_usize)?;
    let (width, rest) = match rest.strip_prefix(FOURTH) {
        Some(rest) => (4, rest),
        None => (3, rest),
    };
    let mut rest = after_line(rest).ok_or(1_usize)?;
    let mut calls = Vec::with_capacity(rest.len() / SHORTEST_LINE + 1);
    while !rest.is_empty() {
        let (call, after) = read_line(rest, width).ok_or(calls.len() + 2)?;
        calls.push(call);
        rest = after;
    }
    Ok(calls)
}

/// The line must end here, with LF, CRLF or the file: what follows.
fn after_line(rest: &[u8]) -> Option<&[u8]> {
    match rest {
        [] => Some(rest),
        [b'\n', after @ ..] | [b'\r', b'\n', after @ ..] => Some(after),
        _ => None,
    }
}

/// The call of the line that begins here, and what follows the line. A line has fields for so many numbers.
fn read_line(line: &[u8], width: usize) -> Option<(Call, &[u8])> {
    let (context, rest) = match line {
        [b'T', b',', rest @ ..] => (T, rest),
        [b'I', b',', rest @ ..] => (I, rest),
        _ => return None,
    };
    let end = rest.iter().position(|&byte| byte == b',')?;
    let (name, mut rest) = rest.split_at(end);
    let service = read_name(name)?;
    let used = SERVICES[service as usize].numbers;
    if used > width {
        return None;
    }
    let mut numbers = [0; 4];
    for (place, number) in numbers[..width].iter_mut().enumerate() {
        rest = rest.strip_prefix(b",")?;
        if place < used {
            (*number, rest) = read_number(rest).or_else(|| read_word(rest, service, place))?;
        } // else the field is blank: the next byte must end it
    }
    let [a, b, c, d] = numbers;
    Some((Call { context, service, a, b, c, d }, after_line(rest)?))
}

/// The number of the service of this name; `ready_ticks` is none of document 000's, so it is unknown here.
fn read_name(name: &[u8]) -> Option<u32> {
    Some(match name {
        b"tn_task_create" => CREATE,
        b"tn_task_delete" => DELETE,
        b"tn_task_activate" => ACTIVATE,
        b"tn_task_iactivate" => IACTIVATE,
        b"tn_task_exit" => EXIT,
        b"tn_task_terminate" => TERMINATE,
        b"tn_task_suspend" => SUSPEND,
        b"tn_task_resume" => RESUME,
        b"tn_task_sleep" => SLEEP,
        b"tn_task_wakeup" => WAKEUP,
        b"tn_task_iwakeup" => IWAKEUP,
        b"tn_task_release_wait" => RELEASE_WAIT,
        b"tn_task_irelease_wait" => IRELEASE_WAIT,
        b"tn_task_change_priority" => CHANGE_PRIORITY,
        b"tn_sys_tslice_ticks" => TSLICE,
        b"tn_tick_int_processing" => TICK,
        b"tn_sem_create" => SEM_CREATE,
        b"tn_sem_delete" => SEM_DELETE,
        b"tn_sem_signal" => SIGNAL,
        b"tn_sem_isignal" => ISIGNAL,
        b"tn_sem_acquire" => ACQUIRE,
        b"tn_sem_polling" => POLLING,
        b"tn_sem_ipolling" => IPOLLING,
        b"tn_event_create" => EVENT_CREATE,
        b"tn_event_delete" => EVENT_DELETE,
        b"tn_event_set" => SET,
        b"tn_event_iset" => ISET,
        b"tn_event_clear" => CLEAR,
        b"tn_event_iclear" => ICLEAR,
        b"tn_event_wait" => EVENT_WAIT,
        b"tn_event_wait_polling" => EVENT_POLLING,
        b"tn_event_iwait" => EVENT_IWAIT,
        b"tn_queue_create" => QUEUE_CREATE,
        b"tn_queue_delete" => QUEUE_DELETE,
        b"tn_queue_send" => SEND,
        b"tn_queue_send_polling" => SEND_POLLING,
        b"tn_queue_isend_polling" => ISEND_POLLING,
        b"tn_queue_receive" => RECEIVE,
        b"tn_queue_receive_polling" => RECEIVE_POLLING,
        b"tn_queue_ireceive" => IRECEIVE,
        _ => return None,
    })
}

/// The endless timeout as a word, where no number begins, and what follows it: no other number of the service is written so.
#[cold]
fn read_word(field: &[u8], service: u32, place: usize) -> Option<(u32, &[u8])> {
    let rest = field.strip_prefix(ENDLESS)?;
    (SERVICES[service as usize].timeout == Some(place)).then_some((FOREVER, rest))
}

/// The number that begins here, and what follows its digits: no needless leading zero, at most 4,294,967,295.
fn read_number(field: &[u8]) -> Option<(u32, &[u8])> {
    let digits = field.iter().take(11).take_while(|byte| byte.is_ascii_digit()).count();
    if digits == 0 || digits == 11 || (field[0] == b'0' && digits > 1) {
        return None;
    }
    let (digits, rest) = field.split_at(digits);
    let number = digits.iter().fold(0_u64, |number, &digit| number * 10 + u64::from(digit - b'0'));
    Some((u32::try_from(number).ok()?, rest))
}

/// The whole answer: a header, then number, code and running task of each call.
pub fn run_calls(calls: &[Call]) -> Vec<u8> {
    let mut kernel = Kernel::fresh();
    let mut rows = Vec::with_capacity(ANSWER_HEADER.len() + calls.len() * LONGEST_ROW);
    rows.extend_from_slice(ANSWER_HEADER);
    for (number, call) in (1..).zip(calls) {
        let Answer { code, running, .. } = kernel.call(call);
        let mut row = Row { bytes: [0; 40], start: 40 };
        row.put(b'\n');
        row.put(b'\r');
        row.put_number(running);
        row.put(b',');
        row.put_number(code.unsigned_abs());
        if code < 0 {
            row.put(b'-');
        }
        row.put(b',');
        row.put_number(number);
        rows.extend_from_slice(&row.bytes[row.start..]);
    }
    rows
}

/// One row of an answer, written from its last byte to its first.
struct Row {
    bytes: [u8; 40], // three numbers of ten digits, a sign, two commas and the line end
    start: usize,
}

impl Row {
    fn put(&mut self, byte: u8) {
        self.start -= 1;
        self.bytes[self.start] = byte;
    }

    fn put_number(&mut self, mut number: u32) {
        while number >= 10 {
            self.put(b'0' + (number % 10) as u8);
            number /= 10;
        }
        self.put(b'0' + number as u8);
    }
}
