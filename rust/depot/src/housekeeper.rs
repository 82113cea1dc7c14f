//! The background work: what nobody else waits for.

use std::sync::{Arc, Weak};
use std::time::{Duration, Instant};

use crate::server::Server;
use crate::session::End;

const TICK: Duration = Duration::from_millis(10);
/// A moment without a line.
const IDLE: Duration = Duration::from_millis(3);
/// Pass steps in an idle tick.
const IDLE_STEPS: u32 = 256;
const SAMPLE: Duration = Duration::from_secs(1);
const AUDIT: Duration = Duration::from_secs(60);

/// When something was done last.
struct Last {
    sample: Instant,
    audit: Instant,
}

impl Last {
    fn due(last: &mut Instant, every: Duration) -> bool {
        let due = last.elapsed() >= every;
        if due {
            *last += every;
        }
        due
    }
}

/// Goes on as long as the server is there and has not ended.
pub fn start(server: &Arc<Server>) {
    let server = Arc::downgrade(server);
    std::thread::spawn(move || {
        let mut last = Last { sample: Instant::now(), audit: Instant::now() };
        while tick(&server, &mut last).is_some() {}
    });
}

fn tick(server: &Weak<Server>, last: &mut Last) -> Option<()> {
    let server = server.upgrade()?;
    server.journal.pause(TICK);
    server.journal.write_waiting();
    if let Some(text) = server.journal.failed() {
        server.end(Err(text));
    }
    keep(&server, last).ok()
}

fn keep(server: &Server, last: &mut Last) -> Result<(), End> {
    let mut engine = server.engine()?;
    let idle = server.options.idle;
    engine.abort_all(|running| running.last.elapsed() >= idle);
    if engine.out_of_patience(server.options.drain_grace) {
        engine.abort_all(|_| true);
    }
    if engine.last_call.elapsed() >= IDLE {
        engine.collect_idle(IDLE_STEPS);
    }
    engine.settle();
    if Last::due(&mut last.sample, SAMPLE) {
        let sample = engine.sample(server.started.elapsed());
        server.samples.lock().expect("samples").add(sample);
    }
    if Last::due(&mut last.audit, AUDIT) {
        engine.audit();
    }
    Ok(())
}
