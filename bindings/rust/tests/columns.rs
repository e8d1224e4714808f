//! Columns: what single calls give, whatever the points; and unequal lengths leave all as it is.

mod common;

use common::{Bits, EARTH, KINDS, NANS, Random, WAYS, bits, build, column, project};
use lenthuc::{Outcome, Projection, Refusal, UnequalLengths};
use std::sync::Arc;
use std::thread;

/// An outcome that no point has, so that a place that is left out is noticed.
fn unwritten() -> Outcome {
    Outcome::from(Refusal::Sphere)
}

/// A column's answers. The results' columns hold NaN before, and the outcomes' one another refusal.
fn answers(map: &dyn Projection, way: u8, u: &[f64], v: &[f64]) -> Vec<Bits> {
    let (mut p, mut q) = (vec![f64::NAN; u.len()], vec![f64::NAN; u.len()]);
    let mut outcomes = vec![unwritten(); u.len()];
    column(map, way, [u, v], [&mut p, &mut q], &mut outcomes).expect("equal lengths");
    let pairs = p.into_iter().zip(q);
    let answers = outcomes.into_iter().zip(pairs);
    answers
        .map(|(outcome, (p, q))| (outcome.number(), p.to_bits(), q.to_bits()))
        .collect()
}

/// What single calls answer.
fn single_calls(map: &dyn Projection, way: u8, u: &[f64], v: &[f64]) -> Vec<Bits> {
    let points = u.iter().zip(v);
    points
        .map(|(&u, &v)| bits(project(map, way, u, v)))
        .collect()
}

fn inputs(random: &mut Random, way: u8, count: usize) -> [Vec<f64>; 2] {
    [(); 2].map(|()| (0..count).map(|_| random.input(way)).collect())
}

/// Every kind and way, on three maps: answers and refusals both come up.
#[test]
fn are_single_calls() {
    let mut random = Random(1);
    for kind in KINDS {
        for way in WAYS {
            for lat0 in [0.7, -1.2, 0.0] {
                let mut settings = EARTH;
                settings[3] = lat0;
                let map = build(kind, settings).expect("a map of the Earth");
                let [u, v] = inputs(&mut random, way, 1500);
                let column = answers(&*map, way, &u, &v);
                assert_eq!(column, single_calls(&*map, way, &u, &v));
                let refused = column.iter().filter(|(number, ..)| *number != 0).count();
                assert!((50..1450).contains(&refused), "{refused}");
            }
        }
    }
}

/// Maps of which a third of the settings are any patterns, where they can be built.
#[test]
fn are_single_calls_on_any_map() {
    let mut random = Random(2);
    let mut built = 0;
    for kind in KINDS {
        for _ in 0..600 {
            let mut settings = EARTH;
            for setting in &mut settings {
                if random.bits() % 3 == 0 {
                    *setting = f64::from_bits(random.bits());
                }
            }
            let Ok(map) = build(kind, settings) else {
                continue;
            };
            built += 1;
            for way in WAYS {
                let [u, v] = inputs(&mut random, way, 20);
                let column = answers(&*map, way, &u, &v);
                assert_eq!(column, single_calls(&*map, way, &u, &v), "{settings:?}");
            }
        }
    }
    assert!(built > 200, "{built}");
}

#[test]
fn have_refused_points_in_their_middle() {
    let lon = [0.1, 0.2, f64::NAN, 0.4, 0.5];
    let lat = [0.1, 2.0, 0.3, 0.4, f64::NEG_INFINITY];
    for kind in KINDS {
        let map = build(kind, EARTH).expect("a map of the Earth");
        let points: Vec<_> = lon.into_iter().zip(lat).collect();
        let answers = map.forward_points(&points);
        assert_eq!(answers[0], map.forward(0.1, 0.1));
        assert_eq!(answers[1], Err(Refusal::ForwardBeyond));
        assert_eq!(answers[2], Err(Refusal::ForwardInput));
        assert_eq!(answers[3], map.forward(0.4, 0.4));
        assert_eq!(answers[4], Err(Refusal::ForwardInput));
        assert!(answers[0].is_ok() && answers[3].is_ok());
        let back = map.inverse_points(&[(1.0, f64::NAN), (6e5, -1e5)]);
        assert_eq!(back, [Err(Refusal::InverseInput), map.inverse(6e5, -1e5)]);
        assert!(back[1].is_ok());
    }
}

#[test]
fn may_be_empty() {
    for kind in KINDS {
        let map = build(kind, EARTH).expect("a map of the Earth");
        for way in WAYS {
            assert_eq!(answers(&*map, way, &[], &[]), []);
        }
        assert_eq!(map.forward_points(&[]), []);
        assert_eq!(map.inverse_points(&[]), []);
    }
}

/// One of the five lengths is another one: shorter, longer, 0 among others, or the only one not 0.
/// No bit of what is lent changes, the payloads of NaN included.
#[test]
fn of_unequal_lengths_stay_as_they_are() {
    let lent: Vec<f64> = NANS.into_iter().map(f64::from_bits).collect();
    let pattern = |x: &f64| x.to_bits();
    for kind in KINDS {
        let map = build(kind, EARTH).expect("a map of the Earth");
        for way in WAYS {
            for (length, other) in [(5, 4), (5, 6), (5, 0), (0, 1), (1, 0), (0, 8)] {
                for odd in 0..5 {
                    let mut lengths = [length; 5];
                    lengths[odd] = other;
                    let [u, v, mut p, mut q] =
                        [0, 1, 2, 3].map(|place| lent[..lengths[place]].to_vec());
                    let mut outcomes = vec![unwritten(); lengths[4]];
                    let said = column(&*map, way, [&u, &v], [&mut p, &mut q], &mut outcomes);
                    assert_eq!(said, Err(UnequalLengths));
                    for (column, length) in [u, v, p, q].into_iter().zip(lengths) {
                        assert!(
                            column
                                .iter()
                                .map(pattern)
                                .eq(NANS[..length].iter().copied())
                        );
                    }
                    assert_eq!(outcomes, vec![unwritten(); lengths[4]]);
                }
            }
        }
    }
}

/// A part of a longer column: what stands before and after it stays as it is.
#[test]
fn keep_to_their_part() {
    let before = f64::from_bits(NANS[7]);
    for kind in KINDS {
        let map = build(kind, EARTH).expect("a map of the Earth");
        let (lon, lat) = ([0.2; 6], [0.4; 6]);
        let (mut p, mut q, mut outcomes) = ([before; 6], [before; 6], [unwritten(); 6]);
        let part = 2..5;
        map.forward_column(
            &lon[part.clone()],
            &lat[part.clone()],
            &mut p[part.clone()],
            &mut q[part.clone()],
            &mut outcomes[part.clone()],
        )
        .expect("equal lengths");
        let (x, y) = map.forward(0.2, 0.4).expect("a point");
        for i in 0..6 {
            let (expected, outcome) = match part.contains(&i) {
                true => ((x, y), Outcome::ANSWERED),
                false => ((before, before), unwritten()),
            };
            assert_eq!(p[i].to_bits(), expected.0.to_bits());
            assert_eq!(q[i].to_bits(), expected.1.to_bits());
            assert_eq!(outcomes[i], outcome);
        }
    }
}

/// A district's homes, there and back to 1e-9 of a radian, six millimetres on the Earth.
#[test]
fn of_200_000_points() {
    let count = 200_000;
    let mut random = Random(3);
    for kind in KINDS {
        let map = build(kind, EARTH).expect("a map of the Earth");
        let lon: Vec<f64> = (0..count).map(|_| 0.3 + random.within(0.01)).collect();
        let lat: Vec<f64> = (0..count).map(|_| 0.7 + random.within(0.01)).collect();
        let there = answers(&*map, b'F', &lon, &lat);
        assert_eq!(there.len(), count);
        let of = |&bits: &u64| f64::from_bits(bits);
        let x: Vec<f64> = there.iter().map(|(_, x, _)| of(x)).collect();
        let y: Vec<f64> = there.iter().map(|(_, _, y)| of(y)).collect();
        let back = answers(&*map, b'I', &x, &y);
        for (i, (&(number, ..), (n, p, q))) in there.iter().zip(&back).enumerate() {
            assert_eq!((number, *n), (0, 0));
            let off = (of(p) - lon[i]).hypot(of(q) - lat[i]);
            assert!(off < 1e-9, "{kind} {i}: {off}");
        }
        // every thousandth by a single call
        for i in (0..count).step_by(1000) {
            assert_eq!(there[i], bits(map.forward(lon[i], lat[i])));
            assert_eq!(back[i], bits(map.inverse(x[i], y[i])));
        }
    }
}

/// Threads that share maps of every kind, each with an origin of its own, get what one thread gets.
#[test]
fn of_several_threads() {
    let map = |(i, kind)| {
        let mut settings = EARTH;
        settings[2] = i as f64 / 10.0;
        build(kind, settings).expect("a map of the Earth")
    };
    let maps: Vec<_> = KINDS.into_iter().enumerate().map(map).collect();
    let mut random = Random(4);
    let tables = WAYS.map(|way| inputs(&mut random, way, 500));
    let all = |first: usize| {
        let mut all = vec![Vec::new(); maps.len()];
        for i in (0..maps.len()).map(|i| (first + i) % maps.len()) {
            for (way, [u, v]) in WAYS.into_iter().zip(&tables) {
                all[i].push(answers(&*maps[i], way, u, v));
                all[i].push(single_calls(&*maps[i], way, u, v));
            }
        }
        all
    };
    let (all, expected) = (&all, all(0));
    thread::scope(|scope| {
        let threads: Vec<_> = (0..8)
            .map(|first| scope.spawn(move || all(first)))
            .collect();
        for thread in threads {
            assert_eq!(thread.join().expect("the thread ends"), expected);
        }
    });
}

/// A map that threads own together is the same map in each, and after them.
#[test]
fn of_threads_that_own_the_map() {
    for kind in KINDS {
        let map: Arc<dyn Projection> = build(kind, EARTH).expect("a map of the Earth").into();
        let expected = bits(map.forward(0.2, 0.6));
        let threads: Vec<_> = (0..4)
            .map(|_| {
                let map = Arc::clone(&map);
                thread::spawn(move || bits(map.forward(0.2, 0.6)))
            })
            .collect();
        for thread in threads {
            assert_eq!(thread.join().expect("the thread ends"), expected);
        }
        assert_eq!(bits(map.forward(0.2, 0.6)), expected);
    }
}
