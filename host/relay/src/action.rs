//! What a host does about a refusal.

use crate::Refusal;

/// What a host does about a refusal: see [`Refusal::action`].
#[derive(Clone, Copy, Debug, PartialEq, Eq, Hash)]
pub enum Action {
    /// The host's own call or its settings were wrong: mend them. The same call is refused
    /// again.
    Correct,
    /// Drop the datagram, or close the connection, and go on. The sender is told nothing:
    /// an answer would tell it how far its bytes came.
    Drop,
    /// Drop it, and look at the clocks of both sides.
    CheckClock,
    /// Drop it. There is room again when sessions or salts are forgotten.
    Wait,
    /// Read more of the stream and make the call again.
    ReadMore {
        /// How many bytes are wanted in all.
        wanted: usize,
    },
    /// Begin a new sending session, or a new stream.
    Renew,
}

impl Refusal {
    /// What a host does about it.
    ///
    /// | number | refusal | of a datagram | of a stream | action |
    /// |---|---|---|---|---|
    /// | 1 | [`Settings`](Refusal::Settings) | key, nonce, table or words are wrong | key, salt, pool or words are wrong | [`Correct`](Action::Correct) |
    /// | 2 | [`Length`](Refusal::Length) | drop what came, or what was to be sealed | drop what was to be sealed | [`Drop`](Action::Drop) |
    /// | 3 | [`Room`](Refusal::Room) | lend a longer buffer | lend a longer buffer | [`Correct`](Action::Correct) |
    /// | 4 | [`NotAuthentic`](Refusal::NotAuthentic) | drop it | close | [`Drop`](Action::Drop) |
    /// | 5 | [`Malformed`](Refusal::Malformed) | drop it | close | [`Drop`](Action::Drop) |
    /// | 6 | [`Type`](Refusal::Type) | drop it | close | [`Drop`](Action::Drop) |
    /// | 7 | [`Time`](Refusal::Time) | drop it, look at the clocks | close, look at the clocks | [`CheckClock`](Action::CheckClock) |
    /// | 8 | [`Replay`](Refusal::Replay) | drop it; the session counts it | close | [`Drop`](Action::Drop) |
    /// | 9 | [`Full`](Refusal::Full) | drop it; 64 sessions are alive | close; 256 salts are kept | [`Wait`](Action::Wait) |
    /// | 10 | [`More`](Refusal::More) | | read more | [`ReadMore`](Action::ReadMore) |
    /// | 11 | [`Counter`](Refusal::Counter) | begin a session | begin a stream | [`Renew`](Action::Renew) |
    /// | 12 | [`Argument`](Refusal::Argument) | address, padding or IDs are wrong | padding is wrong | [`Correct`](Action::Correct) |
    /// | 13 | [`Binding`](Refusal::Binding) | drop it | close | [`Drop`](Action::Drop) |
    /// | 14 | [`Empty`](Refusal::Empty) | | close; seal no payload of no bytes | [`Drop`](Action::Drop) |
    /// | 15 | [`UnknownSetting`](Refusal::UnknownSetting) | | | [`Correct`](Action::Correct) |
    ///
    /// A settings file that is refused is not used, whatever the number.
    ///
    /// ```
    /// use relay::{Action, Refusal};
    ///
    /// assert_eq!(Refusal::Time.action(), Action::CheckClock);
    /// let refusal = Refusal::More { wanted: 43 };
    /// assert_eq!(refusal.action(), Action::ReadMore { wanted: 43 });
    /// ```
    pub fn action(self) -> Action {
        match self {
            Self::Settings | Self::Room | Self::Argument | Self::UnknownSetting { .. } => {
                Action::Correct
            }
            Self::Length
            | Self::NotAuthentic
            | Self::Malformed
            | Self::Type
            | Self::Replay
            | Self::Binding
            | Self::Empty => Action::Drop,
            Self::Time => Action::CheckClock,
            Self::Full => Action::Wait,
            Self::More { wanted } => Action::ReadMore { wanted },
            Self::Counter => Action::Renew,
        }
    }
}

#[cfg(test)]
mod tests {
    use super::Action;
    use crate::Refusal;

    /// The rows of the table above, by number.
    #[test]
    fn each_row_of_the_table_holds() {
        let rows: Vec<&str> = include_str!("action.rs")
            .lines()
            .filter_map(|line| line.trim_start().strip_prefix("/// | "))
            .filter(|row| row.starts_with(|first: char| first.is_ascii_digit()))
            .collect();
        assert_eq!(rows.len(), 15);
        for (number, row) in (1..).zip(rows) {
            let refusal = Refusal::from_library(number, 43);
            let name = |debug: String| debug.split(' ').next().unwrap_or_default().to_string();
            let (refused, action) = (format!("{refusal:?}"), format!("{:?}", refusal.action()));
            let cells: Vec<&str> = row.split('|').map(str::trim).collect();
            assert_eq!(cells[0], number.to_string());
            assert!(cells[1].starts_with(&format!("[`{}`]", name(refused))));
            assert!(cells[4].starts_with(&format!("[`{}`]", name(action))));
        }
    }

    #[test]
    fn the_count_wanted_is_kept() {
        let action = Refusal::from_library(10, 43).action();
        assert_eq!(action, Action::ReadMore { wanted: 43 });
    }
}
