//! Stands for the module `wrapper`, which isn't in the text: nothing of it is used.
