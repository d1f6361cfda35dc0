//! Clients, of this machine alone: so many at once, a thread for each.

use std::io;
use std::net::{Ipv4Addr, TcpListener, TcpStream};
use std::sync::atomic::{AtomicUsize, Ordering};
use std::sync::Arc;
use std::thread;
use std::time::Duration;

use crate::client;
use crate::http::Refused;
use crate::news::News;

/// So many clients at once.
pub const MOST: usize = 64;
const STACK: usize = 128 * 1024;

pub fn listen(port: u16) -> io::Result<TcpListener> {
    TcpListener::bind((Ipv4Addr::LOCALHOST, port))
}

/// A client's place, which is free again when its thread has ended, however that was.
struct Place(Arc<AtomicUsize>);

impl Place {
    fn take(taken: &Arc<AtomicUsize>) -> Option<Place> {
        let more = |count| (count < MOST).then_some(count + 1);
        taken.fetch_update(Ordering::SeqCst, Ordering::SeqCst, more).ok().map(|_| Place(taken.clone()))
    }
}

impl Drop for Place {
    fn drop(&mut self) {
        self.0.fetch_sub(1, Ordering::SeqCst);
    }
}

/// Never ends.
pub fn serve(listener: &TcpListener, port: u16, news: &Arc<News>) -> ! {
    let taken = Arc::new(AtomicUsize::new(0));
    loop {
        match listener.accept() {
            Ok((stream, _)) => begin(stream, port, news, &taken),
            // no descriptor is left, or the client is gone already
            Err(_) => thread::sleep(Duration::from_millis(20)),
        }
    }
}

fn begin(stream: TcpStream, port: u16, news: &Arc<News>, taken: &Arc<AtomicUsize>) {
    let Some(place) = Place::take(taken) else {
        return crowded(stream);
    };
    let news = news.clone();
    // a client that has gone away is no error, and one for which there is no thread is let go
    let _ = thread::Builder::new().name("client".to_string()).stack_size(STACK).spawn(move || {
        let _place = place;
        let _ = client::serve(stream, port, &news);
    });
}

/// Told in the time that one answer takes to be handed to the system, without waiting for the request.
fn crowded(mut stream: TcpStream) {
    let told = stream.set_nonblocking(true).and_then(|()| client::refuse(&mut stream, Refused::Crowded));
    drop(told);
}
