// SPDX-License-Identifier: MIT
//! Why a run fails, and with which exit status: the statuses of the tool
//! `sframe`.

toolkit::failure!(moq::Refusal);
