//! A client with its seats.

use crate::error::{error_of, Error};
use crate::raw;

/// A client with its seats, which are numbered from 1. Its texts go to the server and come from it by the program's own connection. It closes
/// where it is dropped.
pub struct Client {
    handle: raw::Handle,
}

impl Client {
    /// Opens a client with a seat for each of `rings`, which says for how many items the seat has room at first: for more it grows.
    ///
    /// # Errors
    ///
    /// `TooManySeats` above 64, and `NoMemory`.
    pub fn open(rings: &[usize]) -> Result<Client, Error> {
        let mut handle = raw::Handle::closed();
        // SAFETY: the handle is closed, as the header asks, and nobody else has it; the pointer and the length are a slice's.
        match unsafe { raw::kw_client_open(&mut handle, rings.as_ptr(), rings.len()) } {
            raw::DONE => Ok(Client { handle }),
            other => Err(error_of(other)),
        }
    }

    /// The seat of that number. Its calls answer `WrongSeat` where the client has none.
    pub fn seat(&mut self, number: u64) -> Seat<'_> {
        Seat { client: self, number }
    }

    /// A connection to the server stands.
    ///
    /// # Errors
    ///
    /// `Refused` where one stands, `Failed`, `NoMemory`.
    pub fn connected(&mut self) -> Result<(), Error> {
        // SAFETY: the handle is this client's own.
        let status = unsafe { raw::kw_client_connected(&mut self.handle) };
        self.checked(status)
    }

    /// The connection has ended.
    ///
    /// # Errors
    ///
    /// `Refused` where none stands, `Failed`, `NoMemory`.
    ///
    /// ```
    /// # fn main() -> Result<(), kaltewi::Error> {
    /// let mut client = kaltewi::Client::open(&[8])?;
    /// let refused = client.disconnected().unwrap_err();
    /// assert_eq!(refused.to_string(), "core 10 NotConnected");
    /// # Ok(())
    /// # }
    /// ```
    pub fn disconnected(&mut self) -> Result<(), Error> {
        // SAFETY: the handle is this client's own.
        let status = unsafe { raw::kw_client_disconnected(&mut self.handle) };
        self.checked(status)
    }

    /// Takes a message of the server, and says whether it came in time.
    ///
    /// # Errors
    ///
    /// `BadText` where it is no UTF-8; `Refused` where it is no message, or the core refuses it; `Failed`, `NoMemory`.
    pub fn receive(&mut self, message: impl AsRef<[u8]>) -> Result<bool, Error> {
        let text = message.as_ref();
        // SAFETY: the pointer and the length are a slice's, which nobody writes while it is borrowed.
        match unsafe { raw::kw_client_server_message(&mut self.handle, text.as_ptr(), text.len()) } {
            raw::STALE => Ok(false),
            status => self.checked(status).map(|()| true),
        }
    }

    /// Takes out the messages that are to be sent, one after another, until there is none.
    pub fn outgoing(&mut self) -> Outgoing<'_> {
        Outgoing { client: self, is_over: false }
    }

    /// The listens that are kept at the server, a line each, as the console prints them.
    ///
    /// # Errors
    ///
    /// `Failed`, `NoMemory`.
    pub fn cover(&mut self) -> Result<String, Error> {
        // SAFETY: the room is a vector's, which nothing else borrows.
        let (status, text) = raw::text_by(|out, room, len| unsafe { raw::kw_client_cover(&mut self.handle, out, room, len) });
        self.checked(status).map(|()| text)
    }

    /// The next push id, for the moment now in milliseconds since 1970 and twelve numbers from 0 to 63, drawn at random.
    ///
    /// # Errors
    ///
    /// `Refused` where a number is larger, or the last id can be counted up no more.
    ///
    /// ```
    /// # fn main() -> Result<(), kaltewi::Error> {
    /// let mut client = kaltewi::Client::open(&[8])?;
    /// assert_eq!(client.push_key(1_700_000_000_000, [0; 12])?, "-NjEtLV-------------");
    /// # Ok(())
    /// # }
    /// ```
    pub fn push_key(&mut self, now_ms: u64, random: [u8; 12]) -> Result<String, Error> {
        let call = |out: *mut u8, room: usize, len: &mut usize| {
            // SAFETY: the room is a vector's, which nothing else borrows.
            unsafe { raw::kw_client_push_key(&mut self.handle, now_ms, &random, out, room, len) }
        };
        let (status, text) = raw::text_by(call);
        self.checked(status).map(|()| text)
    }

    /// What that seat is told next, if anything waits for it.
    fn next(&mut self, seat: u64) -> Result<Option<String>, Error> {
        // SAFETY: the handle is this client's own.
        let status = unsafe { raw::kw_client_settle(&mut self.handle, seat) };
        self.checked(status)?;
        // SAFETY: the room is a vector's, which nothing else borrows.
        match raw::text_by(|out, room, len| unsafe { raw::kw_client_next(&mut self.handle, seat, out, room, len) }) {
            (raw::NONE, _) => Ok(None),
            (status, text) => self.checked(status).map(|()| Some(text)),
        }
    }

    /// What a status means, by a look at the client where a layer refused.
    fn checked(&mut self, status: u32) -> Result<(), Error> {
        match status {
            raw::DONE => Ok(()),
            raw::REFUSED => Err(self.refusal()),
            other => Err(error_of(other)),
        }
    }

    /// Why a layer refused the last call.
    fn refusal(&mut self) -> Error {
        let mut code = 0;
        // SAFETY: the room is a vector's, which nothing else borrows.
        let (status, words) = raw::text_by(|out, room, len| unsafe { raw::kw_client_error(&mut self.handle, &mut code, out, room, len) });
        match words.split_once(' ') {
            Some((layer, name)) => Error::Refused { layer: layer.to_string(), name: name.to_string(), code },
            None => error_of(status),
        }
    }
}

impl Drop for Client {
    fn drop(&mut self) {
        // SAFETY: the handle is this client's own.
        unsafe { raw::kw_client_close(&mut self.handle) }
    }
}

/// The messages that are to be sent, as [`Client::outgoing`] takes them out; it ends behind an error.
pub struct Outgoing<'a> {
    client: &'a mut Client,
    is_over: bool,
}

impl Iterator for Outgoing<'_> {
    type Item = Result<String, Error>;

    fn next(&mut self) -> Option<Self::Item> {
        if self.is_over {
            return None;
        }
        let handle = &mut self.client.handle;
        // SAFETY: the room is a vector's, which nothing else borrows.
        let (status, text) = raw::text_by(|out, room, len| unsafe { raw::kw_client_take_outgoing(handle, out, room, len) });
        self.is_over = status != raw::DONE;
        match status {
            raw::NONE => None,
            other => Some(self.client.checked(other).map(|()| text)),
        }
    }
}

/// Kinds of changes: those that are asked for are true.
#[derive(Clone, Copy, Debug, PartialEq, Eq)]
pub struct Kinds {
    /// Children that are there no more.
    pub removed: bool,
    /// Children that came.
    pub added: bool,
    /// Children that stand elsewhere in the order.
    pub moved: bool,
    /// Children whose value is another.
    pub changed: bool,
    /// The whole view.
    pub value: bool,
}

impl Kinds {
    /// None of them.
    pub const NONE: Kinds = Kinds { removed: false, added: false, moved: false, changed: false, value: false };

    // As the header has them.
    fn bits(self) -> u32 {
        [self.removed, self.added, self.moved, self.changed, self.value].iter().rev().fold(0, |bits, &it| 2 * bits + u32::from(it))
    }
}

/// A seat of a client, which is told of its own listeners and requests.
///
/// Each call answers the number of the new listener or request. Paths are texts as `/a/b`, trees are JSON, and entries are an object of trees
/// by their paths. A call is refused by `Refused`, `BadText`, `WrongSeat`, `Failed` and `NoMemory`.
pub struct Seat<'a> {
    client: &'a mut Client,
    number: u64,
}

impl Seat<'_> {
    /// Registers a listener. The query is the member `q` of the message that listens, or an order alone, as `{"order":"/score"}`; none is all of
    /// the path.
    ///
    /// # Errors
    ///
    /// As of [`Seat`].
    ///
    /// ```
    /// # fn main() -> Result<(), kaltewi::Error> {
    /// let mut client = kaltewi::Client::open(&[8])?;
    /// let listener = client.seat(1).listen("/scores", Some(r#"{"limit":["last",2],"order":"/score"}"#))?;
    /// assert_eq!(client.cover()?, "T1 /scores {\"limit\":[\"last\",2],\"order\":\"/score\"} by L1\n");
    /// client.seat(1).unlisten(listener)?;
    /// assert_eq!(client.cover()?, "T none\n");
    /// # Ok(())
    /// # }
    /// ```
    pub fn listen(&mut self, path: &str, query: Option<&str>) -> Result<u64, Error> {
        let q = query.unwrap_or("");
        // SAFETY: each pointer and its length are a text's, which nobody writes while it is borrowed.
        self.numbered(|handle, seat, listener| unsafe {
            raw::kw_client_listen(handle, seat, path.as_ptr(), path.len(), q.as_ptr(), q.len(), listener)
        })
    }

    /// From now on a listener of the seat is told changes of these kinds alone. Without the value a batch costs by what has changed, and not by
    /// what the listener shows.
    ///
    /// # Errors
    ///
    /// `WrongSeat`, and `NoMemory`: it is told what it was told.
    ///
    /// ```
    /// # use kaltewi::Kinds;
    /// # fn main() -> Result<(), kaltewi::Error> {
    /// let mut client = kaltewi::Client::open(&[8])?;
    /// let listener = client.seat(1).listen("/a", Some(r#"{"order":"value"}"#))?;
    /// client.seat(1).want(listener, Kinds { added: true, removed: true, ..Kinds::NONE })?;
    /// client.connected()?;
    /// client.receive(r#"{"k":"data","path":"/a","tag":1,"value":{"x":1}}"#)?;
    /// let told: Vec<String> = client.seat(1).items().collect::<Result<_, _>>()?;
    /// assert_eq!(told[1], r#"{"changes":[{"after":null,"k":"added","key":"x","value":1}],"k":"batch","listener":1}"#);
    /// # Ok(())
    /// # }
    /// ```
    pub fn want(&mut self, listener: u64, kinds: Kinds) -> Result<(), Error> {
        // SAFETY: the handle is the client's own.
        let status = unsafe { raw::kw_client_want(&mut self.client.handle, self.number, listener, kinds.bits()) };
        self.client.checked(status)
    }

    /// Ends a listener of the seat.
    ///
    /// # Errors
    ///
    /// As of [`Seat`].
    pub fn unlisten(&mut self, listener: u64) -> Result<(), Error> {
        // SAFETY: the handle is the client's own.
        self.numbered(|handle, seat, _| unsafe { raw::kw_client_unlisten(handle, seat, listener) }).map(|_| ())
    }

    /// Sets a tree at a path; null removes.
    ///
    /// # Errors
    ///
    /// As of [`Seat`].
    ///
    /// ```
    /// # fn main() -> Result<(), kaltewi::Error> {
    /// let mut client = kaltewi::Client::open(&[8])?;
    /// assert_eq!(client.seat(1).set("/a/b", "[1,2]")?, 1);
    /// let refused = client.seat(1).set("/a.b", "1").unwrap_err();
    /// assert_eq!(refused.to_string(), "tree 1 BadKey");
    /// # Ok(())
    /// # }
    /// ```
    pub fn set(&mut self, path: &str, tree: &str) -> Result<u64, Error> {
        // SAFETY: each pointer and its length are a text's, which nobody writes while it is borrowed.
        self.numbered(|handle, seat, request| unsafe {
            raw::kw_client_set(handle, seat, path.as_ptr(), path.len(), tree.as_ptr(), tree.len(), request)
        })
    }

    /// Sets several trees, each at its path, in one write.
    ///
    /// # Errors
    ///
    /// As of [`Seat`].
    pub fn update(&mut self, entries: &str) -> Result<u64, Error> {
        // SAFETY: the pointer and the length are a text's, which nobody writes while it is borrowed.
        self.numbered(|handle, seat, request| unsafe { raw::kw_client_update(handle, seat, entries.as_ptr(), entries.len(), request) })
    }

    /// Removes what is at a path.
    ///
    /// # Errors
    ///
    /// As of [`Seat`].
    pub fn remove(&mut self, path: &str) -> Result<u64, Error> {
        // SAFETY: the pointer and the length are a text's, which nobody writes while it is borrowed.
        self.numbered(|handle, seat, request| unsafe { raw::kw_client_remove(handle, seat, path.as_ptr(), path.len(), request) })
    }

    /// Asks the server to set a tree at a path when the connection ends.
    ///
    /// # Errors
    ///
    /// As of [`Seat`].
    pub fn on_disconnect(&mut self, path: &str, tree: &str) -> Result<u64, Error> {
        // SAFETY: each pointer and its length are a text's, which nobody writes while it is borrowed.
        self.numbered(|handle, seat, request| unsafe {
            raw::kw_client_on_disconnect(handle, seat, path.as_ptr(), path.len(), tree.as_ptr(), tree.len(), request)
        })
    }

    /// Asks the server to set several trees, each at its path, when the connection ends.
    ///
    /// # Errors
    ///
    /// As of [`Seat`].
    pub fn on_disconnect_update(&mut self, entries: &str) -> Result<u64, Error> {
        // SAFETY: the pointer and the length are a text's, which nobody writes while it is borrowed.
        self.numbered(|handle, seat, request| unsafe {
            raw::kw_client_on_disconnect_update(handle, seat, entries.as_ptr(), entries.len(), request)
        })
    }

    /// Drops what was to be written at and below a path when the connection ends.
    ///
    /// # Errors
    ///
    /// As of [`Seat`].
    pub fn cancel_disconnect(&mut self, path: &str) -> Result<u64, Error> {
        // SAFETY: the pointer and the length are a text's, which nobody writes while it is borrowed.
        self.numbered(|handle, seat, request| unsafe {
            raw::kw_client_cancel_disconnect(handle, seat, path.as_ptr(), path.len(), request)
        })
    }

    // Makes a call of the seat: the number that the call gives.
    fn numbered(&mut self, call: impl FnOnce(&mut raw::Handle, u64, &mut u64) -> u32) -> Result<u64, Error> {
        let mut given = 0;
        let status = call(&mut self.client.handle, self.number, &mut given);
        self.client.checked(status).map(|()| given)
    }

    /// What the seat is told, in order and as JSON, until nothing waits for it.
    pub fn items(&mut self) -> Items<'_> {
        Items { client: self.client, number: self.number, is_over: false }
    }
}

/// What a seat is told, as [`Seat::items`] gives it; it ends behind an error.
pub struct Items<'a> {
    client: &'a mut Client,
    number: u64,
    is_over: bool,
}

impl Iterator for Items<'_> {
    type Item = Result<String, Error>;

    fn next(&mut self) -> Option<Self::Item> {
        if self.is_over {
            return None;
        }
        let told = self.client.next(self.number).transpose();
        self.is_over = !matches!(told, Some(Ok(_)));
        told
    }
}
