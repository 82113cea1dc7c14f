//! The table of calls: everything that is said of a call by its name.

use kophdaen::{Held, Store};
use model::{coded, Model};

use crate::Lent;

/// A line has the variant with its numbers, the call's name, and the method that both sides have for it, with
/// what it is lent before the numbers; then `lent` if it has no held form. The name is the bench program's, but
/// for chain, mark, back, share and grant, of which that has no line; and its begin names no client.
macro_rules! calls {
    ($( $call:ident $(($($number:ident),+))?, $name:literal, $method:ident $([$lent:ident])? $(, $form:ident)?; )*) => {
        #[derive(Clone, Copy, Debug, PartialEq, Eq)]
        pub enum Call {
            $( $call $(($(calls!(@u32 $number)),+))?, )*
        }

        /// Every name, in the order of the calls.
        pub const NAMES: &[&str] = &[$( $name ),*];

        impl Call {
            pub fn name(self) -> &'static str {
                match self {
                    $( Call::$call { .. } => $name, )*
                }
            }

            /// The call of this name with these numbers, if there is one.
            pub fn named(name: &str, numbers: &[u32]) -> Option<Call> {
                match (name, numbers) {
                    $( ($name, &[$($($number),+)?]) => Some(Call::$call $(($($number),+))?), )*
                    _ => None,
                }
            }

            pub fn numbers(self) -> Vec<u32> {
                match self {
                    $( Call::$call $(($($number),+))? => vec![$($($number),+)?], )*
                }
            }

            /// Whether it has a held form.
            pub fn can_be_held(self) -> bool {
                match self {
                    $( Call::$call { .. } => calls!(@has [$($form)?]), )*
                }
            }

            /// Makes the call on the library; the answer as the C functions code it.
            pub fn on_library(self, store: &mut Store, lent: Lent) -> u64 {
                let answer = match self {
                    $( Call::$call $(($($number),+))? => store.$method($(lent.$lent,)? $($($number),+)?), )*
                };
                answer.code()
            }

            /// .. in its held form, if it has one.
            pub fn on_held(self, held: &mut Held, lent: Lent) -> Option<u64> {
                match self {
                    $( Call::$call $(($($number),+))? =>
                        calls!(@held [$($form)?] held.$method($(lent.$lent,)? $($($number),+)?)), )*
                }
            }

            /// .. and on the model.
            pub fn on_model(self, model: &mut Model, lent: Lent) -> u64 {
                coded(match self {
                    $( Call::$call $(($($number),+))? => model.$method($(lent.$lent,)? $($($number),+)?), )*
                })
            }
        }
    };
    (@u32 $number:ident) => { u32 };
    (@has []) => { true };
    (@has [lent]) => { false };
    (@held [] $made:expr) => { Some($made.code()) };
    (@held [lent] $made:expr) => { None };
}

calls! {
    Format, "format", format, lent;
    Begin(t, client), "begin", begin;
    Commit(t), "commit", commit;
    Abort(t), "abort", abort;
    LockRead(t, page), "lockr", lock_read;
    LockWrite(t, page), "lockw", lock_write;
    Read(t, object), "read", read[buffer];
    Create(t, object), "create", create;
    SetWord(t, object, field, word), "set", set_word;
    Flush(t, page), "flush", flush[image];
    Force, "force", force;
    StorePage(page), "store", store_page;
    EmptyLog, "empty", empty_log;
    StartPass, "pass", start_pass;
    PassStep, "step", pass_step;
    Reopen, "reopen", reopen, lent;
    ReopenStep, "restep", reopen_step;
    Chain(object), "chain", chain[buffer];
    Mark(t, mark), "mark", mark;
    Back(t, mark), "back", back;
    PassShare(commits), "share", pass_share[buffer];
    Grant(client, page, right), "grant", grant;
}
