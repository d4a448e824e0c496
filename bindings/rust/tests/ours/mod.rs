//! The server of calls once more, answered by the bindings.

use dorgumanna::{
    forecast, need, BatchRefusal, Beginning, Found, Page, PageRef, Refusal, Space, Width,
    PAGE_BYTES,
};
use plain::protocol::{Reply, Request};

/// Four registers that keep a page between calls.
#[derive(Default)]
pub struct Ours {
    pub registers: [Vec<u8>; 4],
}

impl Ours {
    /// The reply to a request; none for one that cannot be carried to a call.
    pub fn answer(&mut self, request: &Request) -> Option<Reply> {
        Some(match request.call {
            0 => {
                self.registers[usize::from(request.page)] = request.first.clone();
                Reply::default()
            }
            1 => bytes(self.registers[usize::from(request.page)].clone()),
            2..=6 => reply(self.edit(request).map(number)),
            13 => {
                let mut buffer = request.second.clone();
                let copied = self
                    .page(request)
                    .and_then(|page| page.copy_key(request.a as usize, &mut buffer));
                Reply {
                    bytes: buffer,
                    ..reply(copied.map(|length| number(length as u64)))
                }
            }
            20 => return self.batch(request),
            _ => reply(self.read(request)),
        })
    }

    /// The page of a request, with its width.
    fn page(&self, request: &Request) -> Result<PageRef<'_>, Refusal> {
        let register = &self.registers[usize::from(request.page)];
        let page = PageRef::from_slice(register, Width::Word)?;
        Ok(PageRef::new(page.bytes(), Width::try_from(request.width)?))
    }

    /// The page of a request, with its width, for an edit.
    fn page_mut(&mut self, request: &Request) -> Result<Page<'_>, Refusal> {
        let width = self.page(request)?.width();
        Page::from_slice(&mut self.registers[usize::from(request.page)], width)
    }

    /// The calls that write nowhere.
    fn read(&self, request: &Request) -> Result<Reply, Refusal> {
        let (slot, key) = (request.a as usize, &request.first);
        let register = &self.registers[usize::from(request.page)];
        Ok(match request.call {
            7 => match self.page(request)?.find(key)? {
                Found::Equal(slot) => pair(slot as u64, 1),
                Found::Smaller(keys) => pair(keys as u64, 0),
            },
            8 => number(self.page(request)?.lower_bound(key)? as u64),
            9 => number(self.page(request)?.upper_bound(key)? as u64),
            10 => number(self.page(request)?.compare(slot, key)? as i64 as u64),
            11 => {
                let child = PageRef::from_slice(register, Width::Word)?.child(key)?;
                let slot = child.slot.map_or(u64::MAX, |slot| slot as u64);
                pair(slot, child.value)
            }
            12 => {
                let page = self.page(request)?;
                let a = page.entry(slot)?;
                let mut key = vec![0; 2 * PAGE_BYTES];
                let length = page.copy_key(slot, &mut key)?;
                key.truncate(length);
                Reply { a, ..bytes(key) }
            }
            14 => number(self.page(request)?.trailing_id(slot)?),
            15 => bytes(numbers(
                PageRef::from_slice(register, Width::Word)?.space()?,
            )),
            16 => number(need(Width::try_from(request.width)?, slot, key)?),
            17 => {
                let forecast = forecast(key, &request.second)?;
                pair(forecast.prefix_len as u64, forecast.effective)
            }
            18 => number(u64::from(self.page(request)?.layout())),
            19 => number(u64::from(self.page(request)?.fit())),
            call => unreachable!("call {call}"),
        })
    }

    /// Begin, insert, set value, change key, run copy; 0 for those that answer nothing.
    fn edit(&mut self, request: &Request) -> Result<u64, Refusal> {
        let (a, b, key) = (request.a, request.b, request.first.as_slice());
        match request.call {
            2 => {
                let register = &mut self.registers[usize::from(request.page)];
                let with = Beginning {
                    height: a as u16,
                    timestamp: b,
                    lower: key,
                    lower_value: request.c,
                    upper: &request.second,
                    hints: request.width == 1,
                };
                Page::from_slice(register, Width::Word)?.begin(&with)?;
                Ok(0)
            }
            3 => Ok(self.page_mut(request)?.insert(key, a)? as u64),
            4 => self.page_mut(request)?.set_value(key, a, b),
            5 => {
                self.page_mut(request)?.change_key(a as usize, key)?;
                Ok(0)
            }
            _ => {
                let source = self.registers[usize::from(request.other)].clone();
                let source = PageRef::from_slice(&source, Width::Word)?.bytes();
                let mut page = self.page_mut(request)?;
                page.copy_run(source, a as usize, b as usize)?;
                Ok(0)
            }
        }
    }

    /// A batch; none where it is cut, which is looked at before the page: where that is refused, any other page tells.
    fn batch(&mut self, request: &Request) -> Option<Reply> {
        let records = &request.first;
        let filed = match self.page_mut(request) {
            Ok(mut page) => page.file_batch(records),
            Err(refusal) => {
                let cut = Page::new(&mut [0; PAGE_BYTES], Width::Word).file_batch(records)
                    == Err(BatchRefusal::Cut);
                Err(match cut {
                    true => BatchRefusal::Cut,
                    false => BatchRefusal::Record { place: 0, refusal },
                })
            }
        };
        match filed {
            Ok(records) => Some(number(records as u64)),
            Err(BatchRefusal::Cut) => None,
            Err(BatchRefusal::Record { place, refusal }) => Some(Reply {
                number: refusal.number(),
                ..pair(place as u64, refusal.carried())
            }),
        }
    }
}

fn reply(answer: Result<Reply, Refusal>) -> Reply {
    answer.unwrap_or_else(|refusal| Reply {
        number: refusal.number(),
        ..number(refusal.carried())
    })
}

fn number(a: u64) -> Reply {
    pair(a, 0)
}

fn pair(a: u64, b: u64) -> Reply {
    Reply {
        a,
        b,
        ..Reply::default()
    }
}

fn bytes(bytes: Vec<u8>) -> Reply {
    Reply {
        bytes,
        ..Reply::default()
    }
}

fn numbers(space: Space) -> Vec<u8> {
    [
        space.start,
        space.end,
        space.free,
        space.used,
        space.effective,
        space.reclaimable,
        space.compacted,
    ]
    .iter()
    .flat_map(|number| number.to_le_bytes())
    .collect()
}
