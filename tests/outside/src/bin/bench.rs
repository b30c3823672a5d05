//! Times the library beside the reference and prints what it sees; it asserts no time.

fn main() {
    caisson_tests::bench::check::print();
    caisson_tests::bench::reset::print();
    caisson_tests::bench::run::print();
    caisson_tests::bench::journals::print();
    caisson_tests::bench::replays::print();
    caisson_tests::bench::raise::print();
    caisson_tests::bench::prune::print();
    caisson_tests::bench::file::print();
    caisson_tests::bench::gates::print();
}
