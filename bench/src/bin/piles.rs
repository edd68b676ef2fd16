//! piles SEED COUNT: so many random piles, good and damaged, every second one by sets, through each joiner of the library and of the independent
//! implementation: the same answer, and the same content of the lent words. Prints how often each answer was met. No step of the gate.
use bench::inputs;
use bench::met::Met;
use bench::numbers::Numbers;
use bench::reference;
use bench::sets;
use bench::unit;

fn main() {
    let words: Vec<usize> = std::env::args().skip(1).map(|word| word.parse().expect("SEED COUNT")).collect();
    let [seed, count] = words[..] else { panic!("SEED COUNT") };
    let mut n = Numbers::new(seed as u64);
    let mut met = [Met::default(), Met::default()];
    let mut made = 0;
    while made < count {
        let d = inputs::good_deal(&mut n);
        let s = sets::by_sets(&mut n, &d);
        for scheme in [0, 1].repeat(5).into_iter().take(count - made) {
            let pile = if scheme == 0 { inputs::pile(&mut n, &d) } else { sets::pile(&mut n, &d, &s).1 };
            let room = if n.once_in(4) { n.below(17) } else { 16 };
            let before: Vec<u16> = (0..room).map(|_| n.next() as u16).collect();
            let mut theirs = before.clone();
            let expected = reference::join(&pile, &mut theirs);
            met[scheme].note(&expected);
            for join in unit::JOINERS.into_iter().chain([reference::join_by_differences as fn(&_, &mut _) -> _]) {
                let mut ours = before.clone();
                assert_eq!(join(&pile, &mut ours), expected, "seed {seed}, pile {made}: {d:?}");
                assert_eq!(ours, theirs, "seed {seed}, pile {made}: {d:?}");
            }
            made += 1;
        }
    }
    for (scheme, met) in ["the first scheme", "by sets"].into_iter().zip(met) {
        println!("{scheme}:");
        met.shows(&[0, 12, 13, 14, 15, 16, 17, 18, 19, 20]);
    }
    println!("{made} piles, no difference");
}
