//! A mapper for each thread, and the ceiling over all of them.

use std::sync::{Mutex, PoisonError, RwLock};

use aznifrem::{Error, Mapper, Mode};

/// What kind of maps is made.
#[derive(Clone, Copy, Default)]
pub struct Kind {
    pub mode: Mode,
    /// The records have their numbers.
    pub numbered: bool,
}

impl Kind {
    fn mapper(self, ceiling: usize) -> Mapper {
        let mapper = Mapper::with_ceiling(ceiling).in_mode(self.mode);
        if self.numbered {
            mapper.numbered()
        } else {
            mapper
        }
    }
}

/// The threads share the ceiling evenly. A contract that needs more than a share is mapped again with
/// all of it, while the others wait and hold nothing: so what is refused does not depend on how many
/// threads there are.
pub struct Mappers {
    ceiling: usize,
    share: usize,
    kind: Kind,
    each: Vec<Mutex<Mapper>>,
    alone: RwLock<()>,
}

impl Mappers {
    pub fn new(ceiling: usize, threads: usize, kind: Kind) -> Mappers {
        let share = ceiling / threads.max(1);
        let mapper = |_| Mutex::new(kind.mapper(share));
        Mappers {
            ceiling,
            share,
            kind,
            each: (0..threads).map(mapper).collect(),
            alone: RwLock::new(()),
        }
    }

    /// What the work comes to with this thread's mapper, or with one that may have all.
    pub fn with<T, E>(
        &self,
        thread: usize,
        work: impl Fn(&mut Mapper) -> Result<T, E>,
        library: impl Fn(&E) -> Option<&Error>,
    ) -> Result<T, E> {
        let result = self.beside_others(thread, &work);
        let full = result.as_ref().err().and_then(library);
        if self.share == self.ceiling || !full.is_some_and(wants_more) {
            return result;
        }
        let _alone = self.alone.write().unwrap_or_else(PoisonError::into_inner);
        for mapper in &self.each {
            *locked(mapper) = self.kind.mapper(self.share);
        }
        work(&mut self.kind.mapper(self.ceiling))
    }

    fn beside_others<R>(&self, thread: usize, work: impl Fn(&mut Mapper) -> R) -> R {
        let _beside = self.alone.read().unwrap_or_else(PoisonError::into_inner);
        work(&mut locked(&self.each[thread]))
    }
}

/// A mapper is whole whatever panicked beside it.
fn locked(mapper: &Mutex<Mapper>) -> std::sync::MutexGuard<'_, Mapper> {
    mapper.lock().unwrap_or_else(PoisonError::into_inner)
}

fn wants_more(error: &Error) -> bool {
    matches!(error, Error::RoomFull { .. } | Error::NoMemory { .. })
}

#[cfg(test)]
mod tests {
    use super::{Kind, Mappers};
    use aznifrem::{Error, Mapper};

    /// W of this code alone is 64 KiB and more.
    const CODE: [u8; 1024] = [0x5b; 1024];

    fn mapped(mappers: &Mappers, thread: usize) -> Result<usize, Error> {
        let work = |mapper: &mut Mapper| mapper.map(&CODE, 0).map(|map| map.code_length);
        mappers.with(thread, work, |error| Some(error))
    }

    #[test]
    fn a_contract_may_have_the_whole_ceiling() {
        let needed = 256 << 10;
        for threads in [1, 2, 64] {
            let mappers = Mappers::new(needed, threads, Kind::default());
            assert_eq!(mapped(&mappers, threads - 1), Ok(1024));
            let Err(Error::RoomFull { ceiling, .. }) =
                mapped(&Mappers::new(1000, threads, Kind::default()), 0)
            else {
                panic!("it needs more");
            };
            assert_eq!(ceiling, 1000);
        }
    }
}
