// SPDX-License-Identifier: MIT
//! Why a run of a tool fails, and with which exit status.

/// Defines `Failure` for a tool whose calls answer this type of refusal. A
/// refusal's status is its own number.
#[macro_export]
macro_rules! failure {
    ($refusal:ty) => {
        /// Why a run fails.
        #[derive(Debug)]
        pub enum Failure {
            /// The sealing layer refused.
            Refused($refusal),
            /// The sealing layer refused, and more is known of the cause than
            /// the refusal says.
            Explained($refusal, String),
            /// Something else is wrong.
            Fault($crate::fault::Fault),
        }

        impl Failure {
            /// The exit status: a refusal's own number, or one above them all.
            pub fn status(&self) -> u8 {
                match self {
                    Failure::Refused(refusal) | Failure::Explained(refusal, _) => {
                        refusal.number() as u8
                    }
                    Failure::Fault(fault) => fault.status(),
                }
            }
        }

        impl From<$refusal> for Failure {
            fn from(refusal: $refusal) -> Self {
                Failure::Refused(refusal)
            }
        }

        impl From<$crate::fault::Fault> for Failure {
            fn from(fault: $crate::fault::Fault) -> Self {
                Failure::Fault(fault)
            }
        }

        impl std::fmt::Display for Failure {
            fn fmt(&self, f: &mut std::fmt::Formatter) -> std::fmt::Result {
                match self {
                    Failure::Refused(refusal) => {
                        write!(f, "refused ({}): {refusal}", refusal.number())
                    }
                    Failure::Explained(refusal, text) => {
                        write!(f, "refused ({}): {text}", refusal.number())
                    }
                    Failure::Fault(fault) => fault.fmt(f),
                }
            }
        }
    };
}
