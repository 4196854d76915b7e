//! Keys, signatures, checks and the round examiner of each category: the proved archive beside the
//! independent program, on honest, damaged and forged inputs. Categories 3 and 5 get fewer of them,
//! since each costs more there.

mod agree;
mod damaged;
mod forged;
mod honest;
mod refusals;
mod rounds;
