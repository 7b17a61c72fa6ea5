//! The `nicbench` program.

#![cfg_attr(unix, no_main)]

nic82599::program!(nicbench);
