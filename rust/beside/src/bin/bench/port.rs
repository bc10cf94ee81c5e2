//! The library's pool.

use crate::buffers::{Buffers, ALL};
use crate::{Call, Pages, Shape};
use goramul::{Notices, Object, Pool, Refusal, Store, MAX_FRAMES, MAX_PAGES};
use std::hint::black_box;

pub struct Port {
    store: Store,
    /// The tables before the call.
    before: Store,
    object: Object,
    notices: Notices,
}

impl Port {
    pub fn new(shape: Shape) -> Result<Port, Refusal> {
        let bytes = &Buffers::default().bytes;
        let (mut store, mut notices) = (Store::zeros(MAX_FRAMES), Notices::enough());
        let mut pool = Pool::over(store.lend());
        pool.restart()?;
        for _ in 0..shape.others {
            let other = pool.new(MAX_PAGES)?;
            pool.write(other, 0, bytes, &mut notices)?;
        }
        let mut object = pool.new(MAX_PAGES)?;
        if shape.pages == Pages::Shared {
            pool.write(object, 0, bytes, &mut notices)?;
        }
        for _ in 0..shape.children {
            object = pool.create_child(object, 0, ALL as u64, &mut notices)?;
        }
        if shape.pages == Pages::Own {
            pool.write(object, 0, bytes, &mut notices)?;
        }
        for _ in 0..shape.mappings {
            pool.append_mapping(object, 0, MAX_PAGES)?;
        }
        Ok(Port {
            before: store.clone(),
            store,
            object,
            notices,
        })
    }

    /// The tables as they were; the bytes of the memory don't matter.
    pub fn reset(&mut self) {
        let (now, before) = (&mut self.store, &self.before);
        now.nodes.copy_from_slice(&before.nodes);
        now.pages.copy_from_slice(&before.pages);
        now.used.copy_from_slice(&before.used);
        now.head.copy_from_slice(&before.head);
    }

    /// On the first `len` bytes.
    pub fn call(&mut self, call: Call, len: usize, buffers: &mut Buffers) {
        let mut pool = Pool::over(self.store.lend());
        let (object, list) = (self.object, &mut self.notices);
        let bytes = &buffers.bytes[..len];
        let done = match call {
            Call::Read => pool.read(object, 0, &mut buffers.buf[..len]),
            Call::Write => {
                let done = pool.write(object, 0, bytes, list);
                done.map(|_| ()).map_err(Refusal::from)
            }
            Call::CreateChild => pool.create_child(object, 0, len as u64, list).map(|_| ()),
            Call::Peek => {
                let page = black_box(pool.peek(object, 0));
                page.map(|_| ()).ok_or(Refusal::OutOfRange)
            }
            Call::Forecast => pool.forecast(object, 0, len as u64).map(|yes| {
                black_box(yes);
            }),
        };
        assert_eq!(done, Ok(()));
    }

    pub fn free_frames(&self) -> usize {
        self.store.used.iter().filter(|flag| **flag == 0).count()
    }
}
