//! Which of the things that a task polls its wakers call for.

use std::sync::atomic::{AtomicBool, Ordering};
use std::sync::Arc;
use std::task::{Context, Poll, Wake, Waker};

/// Wakes a task, and notes for what.
pub struct WakeFlag {
    is_woken: AtomicBool,
    task: Waker,
}

impl Wake for WakeFlag {
    fn wake(self: Arc<Self>) {
        self.wake_by_ref();
    }

    fn wake_by_ref(self: &Arc<Self>) {
        self.is_woken.store(true, Ordering::Release);
        self.task.wake_by_ref();
    }
}

/// Has something polled only where it may go on: when it was woken, and after it was ready.
pub enum PollOnWake {
    /// Always, as where another may take its place as the one that is woken.
    Always,
    Woken(Option<(Arc<WakeFlag>, Waker)>),
}

impl PollOnWake {
    /// Whether wakers are told apart.
    pub fn new(tells_apart: bool) -> PollOnWake {
        match tells_apart {
            true => PollOnWake::Woken(None),
            false => PollOnWake::Always,
        }
    }

    pub fn poll(
        &mut self,
        cx: &mut Context<'_>,
        poll: impl FnOnce(&mut Context<'_>) -> Poll<()>,
    ) -> Poll<()> {
        let woken = match self {
            PollOnWake::Always => return poll(cx),
            PollOnWake::Woken(woken) => woken,
        };
        let known = woken.take().filter(|(flag, _)| flag.task.will_wake(cx.waker()));
        let (flag, waker) = woken.insert(known.unwrap_or_else(|| {
            let (is_woken, task) = (AtomicBool::new(true), cx.waker().clone());
            let flag = Arc::new(WakeFlag { is_woken, task });
            (flag.clone(), flag.into())
        }));
        if !flag.is_woken.swap(false, Ordering::Acquire) {
            return Poll::Pending;
        }
        let polled = poll(&mut Context::from_waker(waker));
        if polled.is_ready() {
            flag.is_woken.store(true, Ordering::Relaxed);
        }
        polled
    }
}

#[cfg(test)]
mod tests {
    use super::*;

    /// A task that does nothing when it is woken.
    struct NoopWake;

    impl Wake for NoopWake {
        fn wake(self: Arc<Self>) {}
    }

    #[test]
    fn it_is_polled_when_it_was_woken_and_after_it_was_ready() {
        let (task, other) = (Waker::from(Arc::new(NoopWake)), Waker::from(Arc::new(NoopWake)));
        let (mut gate, mut seen) = (PollOnWake::Woken(None), None);
        let mut polls = |task: &Waker, polled: Poll<()>| {
            let (mut cx, mut is_polled) = (Context::from_waker(task), false);
            let answer = gate.poll(&mut cx, |cx| {
                is_polled = true;
                seen = Some(cx.waker().clone());
                polled
            });
            assert_eq!(answer, if is_polled { polled } else { Poll::Pending });
            (is_polled, seen.clone().unwrap())
        };
        assert!(polls(&task, Poll::Ready(())).0);
        assert!(polls(&task, Poll::Pending).0);
        let (is_polled, waker) = polls(&task, Poll::Ready(()));
        assert!(!is_polled);
        waker.wake();
        assert!(polls(&task, Poll::Pending).0);
        assert!(!polls(&task, Poll::Pending).0);
        assert!(polls(&other, Poll::Pending).0);
    }
}
