//! Scenes in which a pool is opened: as a run left it, with something changed, or out of range; and calls on what comes of it.

use draw::Random;
use moments::{draw, handed, Draw};
use twin::page_words;

use crate::scene::Scene;
use crate::scenes::{fresh, next};

/// A run whose pool is opened now and then, as it is or with something changed, and goes on from there.
pub fn opening(random: &mut Random) -> Scene {
    let (draw, first) = drawn(random);
    let mut scene = fresh(random, &draw);
    let mut at = calls(random, &draw, &mut scene, 0, first);
    for _ in 0..random.from(1, 4) {
        for _ in 0..random.from(1, 6) {
            let before = scene.drive.words.clone();
            let words = handed(random, draw.k, draw.n, &before);
            scene.pool_becomes(&words);
            open(random, &draw, &mut scene);
            at = calls(random, &draw, &mut scene, at, 3);
            scene.pool_becomes(&before);
        }
        // as it is: the run goes on from there
        open_as_it_is(&draw, &mut scene);
        at = calls(random, &draw, &mut scene, at, 120);
    }
    scene
}

/// How the run is drawn, and how many calls it has at most before the pool is opened first. Some pools are large.
fn drawn(random: &mut Random) -> (Draw, u64) {
    let mut draw = draw(random);
    if random.percent(15) {
        draw.k = random.one(&[1, 1, 2, 16]);
        draw.n = random.one(&[64, 200, 1024]);
        draw.keys = random.one(&[400, 1 << 32]);
        draw.turn = random.from(500, 1500) as usize;
        return (draw, 2500);
    }
    (draw, 300)
}

/// So many calls of the run at most; gives how many there are then.
fn calls(random: &mut Random, draw: &Draw, scene: &mut Scene, at: usize, most: u64) -> usize {
    let end = at + random.below(most + 1) as usize;
    for at in at..end {
        let call = next(random, draw, scene, at);
        scene.call(call);
    }
    end
}

/// Opens the words as they are, and asks for all that is left.
fn open_as_it_is(draw: &Draw, scene: &mut Scene) {
    scene.text("q 1");
    scene.text(&format!("o {} {}", draw.k, draw.n));
    scene.text("q 0");
}

/// The same, now and then with a state of rubbish, or with k, N or a number of words that do not belong together.
fn open(random: &mut Random, draw: &Draw, scene: &mut Scene) {
    if random.percent(30) {
        let rubbish: Vec<u32> = (0..random.from(1, 451))
            .map(|_| random.below(20) as u32)
            .collect();
        scene.state_words(&rubbish);
    }
    if random.percent(90) {
        return open_as_it_is(draw, scene);
    }
    let k = random.one(&[0, draw.k, draw.k + 1, 17, u32::MAX]);
    let n = random.one(&[0, draw.n - 1, draw.n, draw.n + 1, 1025, u32::MAX]);
    scene.text("q 1");
    scene.text(&format!("o {k} {n}"));
    scene.text("q 0");
}

/// Openings of words that no run left: fresh pools, small numbers, lengths near the right one.
pub fn raw_opening(random: &mut Random) -> Scene {
    let mut scene = Scene::new(0, 0);
    scene.text("q 1");
    for _ in 0..12 {
        let (k, n) = (random.from(1, 3) as u32, random.from(1, 5) as u32);
        let most = random.one(&[1, 2, 4, 12]);
        let length = n as usize * page_words(k) + random.one(&[0, 0, 0, 0, 0, 1]);
        scene.text(&format!("p {length} 0"));
        let mut words: Vec<u32> = (0..length).map(|_| random.below(most) as u32).collect();
        words[0] = random.below(4) as u32;
        // so that the lowest bad page is any one
        words[random.below(length as u64 + 1) as usize..].fill(0);
        scene.pool_words(&words);
        scene.text(&format!("o {k} {n}"));
        scene.text("b 3 2 5 7");
        scene.text("t 3");
        scene.text("r 0");
    }
    scene
}
