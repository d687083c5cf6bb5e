//! Stands for the module `fmt`, which isn't in the text: nothing of it is used.
