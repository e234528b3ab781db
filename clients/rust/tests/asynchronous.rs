//! A session under an asynchronous runtime, here one of a few lines: a future is polled by this
//! thread, and a thread per wait wakes it.

#[path = "support/scripted.rs"]
#[allow(dead_code)]
mod support;

use locks_client::{Answer, ClientId, ClusterId, Error, Numbers, Op, Session, Step};
use std::future::{Future, poll_fn};
use std::io::{ErrorKind, Result as IoResult};
use std::net::{SocketAddr, UdpSocket};
use std::pin::pin;
use std::sync::Arc;
use std::task::{Context, Poll, Wake, Waker};
use std::thread::{self, Thread};
use std::time::{Duration, Instant};
use support::{BUSY, FREE, GRANTED, Node, RELEASED, answer, op};

const PATIENCE: Duration = Duration::from_secs(10);

/// Wakes the thread that polls a future.
struct Polled(Thread);

impl Wake for Polled {
    fn wake(self: Arc<Self>) {
        self.0.unpark();
    }
}

/// Polls a future of this thread until it is ready, or until that time.
fn run_until<T>(end: Instant, future: impl Future<Output = T>) -> Option<T> {
    let waker = Waker::from(Arc::new(Polled(thread::current())));
    let mut future = pin!(future);
    while Instant::now() < end {
        if let Poll::Ready(value) = future.as_mut().poll(&mut Context::from_waker(&waker)) {
            return Some(value);
        }
        thread::park_timeout(end.saturating_duration_since(Instant::now()));
    }
    None
}

fn run<T>(future: impl Future<Output = T>) -> T {
    run_until(Instant::now() + PATIENCE, future).unwrap()
}

/// A socket whose waits are futures.
struct Socket(UdpSocket);

impl Socket {
    fn new(address: SocketAddr) -> Socket {
        let socket = UdpSocket::bind(address).unwrap();
        socket.set_nonblocking(true).unwrap();
        Socket(socket)
    }

    /// The next datagram; nothing at that time.
    async fn receive(&self, buffer: &mut [u8], until: Instant) -> Option<(usize, SocketAddr)> {
        poll_fn(|context| match self.0.recv_from(buffer) {
            Ok(found) => Poll::Ready(Some(found)),
            Err(_) if Instant::now() >= until => Poll::Ready(None),
            Err(error) => {
                assert_eq!(error.kind(), ErrorKind::WouldBlock);
                wake_soon(context);
                Poll::Pending
            }
        })
        .await
    }

    async fn send(&self, bytes: &[u8], to: SocketAddr) -> IoResult<usize> {
        self.0.send_to(bytes, to)
    }
}

fn wake_soon(context: &Context<'_>) {
    let waker = context.waker().clone();
    thread::spawn(move || {
        thread::sleep(Duration::from_millis(2));
        waker.wake();
    });
}

/// The answer to the request that a session has begun: the loop that every runtime needs.
async fn answered(session: &mut Session, socket: &Socket) -> Result<Answer, Error> {
    let mut buffer = [0; Session::LONGEST];
    loop {
        match session.step(Instant::now()) {
            Step::Send { bytes, to } => drop(socket.send(&bytes, to).await),
            Step::Wait { until } => {
                if let Some((length, from)) = socket.receive(&mut buffer, until).await {
                    session.take(&buffer[..length], from, Instant::now());
                }
            }
            Step::Done(answer) => return answer,
        }
    }
}

async fn ask(session: &mut Session, socket: &Socket, op: Op) -> Result<Answer, Error> {
    session.begin(op, Instant::now(), PATIENCE)?;
    answered(session, socket).await
}

/// Goes on with the request that a future left open, which was dropped.
async fn resume(session: &mut Session, socket: &Socket) -> Result<Answer, Error> {
    session.resume(Instant::now(), PATIENCE)?;
    answered(session, socket).await
}

/// Waits for a lock until it is granted. Its fence.
async fn lock(session: &mut Session, socket: &Socket, name: &str) -> Result<u64, Error> {
    let op = Op::Acquire(name.to_owned());
    session.begin_wait(op, Instant::now(), PATIENCE, PATIENCE)?;
    match answered(session, socket).await? {
        Answer::Granted(fence) => Ok(fence),
        answer => unreachable!("{answer}"),
    }
}

fn session(port: u16) -> (Session, Socket) {
    let numbers = Numbers::from_first(1).unwrap();
    let (cluster, id) = (ClusterId::new(5), ClientId::new(7).unwrap());
    let node = SocketAddr::from(([127, 0, 0, 1], port));
    let session = Session::new(cluster, id, &[node], numbers).unwrap();
    let socket = Socket::new(session.own_address());
    (session, socket)
}

fn acquire() -> Op {
    Op::Acquire("db".to_owned())
}

fn release() -> Op {
    Op::Release("db".to_owned(), 1)
}

#[test]
fn a_lock_is_taken_and_given_back_by_futures() {
    let node = Node::new(vec![
        vec![answer(1, FREE)],
        vec![answer(2, GRANTED)],
        vec![answer(3, RELEASED)],
    ]);
    let (mut session, socket) = session(node.port);
    let answers = run(async {
        let granted = ask(&mut session, &socket, acquire()).await?;
        let released = ask(&mut session, &socket, release()).await?;
        Ok::<_, Error>((granted, released))
    });
    assert_eq!(answers.unwrap(), (Answer::Granted(1), Answer::Released));
    assert_eq!(node.ops()[1..], [op(1, None), op(2, Some(1))]);
}

#[test]
fn a_lock_that_is_held_is_waited_for_by_a_future() {
    let node = Node::new(vec![
        vec![answer(1, FREE)],
        vec![answer(2, BUSY)],
        vec![answer(3, GRANTED)],
    ]);
    let (mut session, socket) = session(node.port);
    assert_eq!(run(lock(&mut session, &socket, "db")).unwrap(), 1);
}

#[test]
fn what_a_dropped_future_asked_is_resumed_and_given_back() {
    let node = Node::new(vec![
        vec![answer(1, FREE)],
        vec![answer(2, FREE)],
        vec![], // the acquire is executed, and its answer is lost
        vec![answer(3, GRANTED)],
        vec![answer(4, RELEASED)],
    ]);
    let (mut session, socket) = session(node.port);
    run(ask(&mut session, &socket, Op::Ask("db".to_owned()))).unwrap();
    let soon = Instant::now() + Duration::from_millis(100);
    assert!(run_until(soon, ask(&mut session, &socket, acquire())).is_none());
    assert!(session.is_waiting());
    let refused = run(ask(&mut session, &socket, acquire()));
    assert!(matches!(refused, Err(Error::Unanswered { .. })));
    let granted = run(resume(&mut session, &socket)).unwrap();
    assert_eq!(granted, Answer::Granted(1));
    let released = run(ask(&mut session, &socket, release())).unwrap();
    assert_eq!(released, Answer::Released);
    assert_eq!(session.holds().count(), 0);
    assert_eq!(node.heard().len(), 5);
}

#[test]
fn a_future_of_a_session_may_go_to_another_thread() {
    let (mut session, socket) = session(7001);
    fn may_go<T: Send>(_: T) {}
    may_go(ask(&mut session, &socket, acquire()));
}
