// SPDX-License-Identifier: MIT
//! Why a run fails, and with which exit status.

toolkit::failure!(sframe::Refusal);
