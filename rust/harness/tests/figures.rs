//! Every figure on the model.

use harness::{figure_tests, Model};

figure_tests! { Model }
