//! Runs of calls on one store: tables offered, packages of several tables loaded, and everything looked up.

use crate::{is_letter, line_of, sound_tables};
use peer::archive::both::{Both, Sent, Signer};
use peer::archive::{Category, CATEGORIES};
use peer::harness::Tally;
use peer::line::cases::valid_under;
use peer::line::{Profile, NOMINAL_HERTZ};
use peer::rng::Rng;
use peer::store::{table_of, Device, Measured, SLOTS, STORE};
use peer::table::cases::{any_file, any_image, file_of, sound};
use peer::table::Table;

/// Few countries, so that triples come again.
const COUNTRIES: [&[u8; 2]; 3] = [b"XA", b"XB", b"AX"];

/// A package of a line that is valid under some table.
struct Post {
    profile: Profile,
    package: Vec<u8>,
}

/// What a run draws from.
struct World {
    tables: Vec<Table>,
    key: Vec<u8>,
    posts: Vec<Post>,
}

impl World {
    fn new(category: &Category, rng: &mut Rng, posts: usize) -> World {
        let mut tables = sound_tables().to_vec();
        tables.extend((0..2).map(|_| sound(rng)));
        let signer = Signer::new(category, rng);
        let post = |rng: &mut Rng, at: usize| {
            let base = valid_under(rng, &tables[at % tables.len()]);
            let country = *COUNTRIES[rng.below(COUNTRIES.len())];
            let profile = Profile { country, serial: 1 + rng.below(6) as u32, ..base };
            Post { profile, package: signer.package(rng, &line_of(&profile)) }
        };
        let posts = (0..posts).map(|at| post(rng, at)).collect();
        World { key: signer.key.clone(), posts, tables }
    }
}

struct Run<'a> {
    world: &'a World,
    rng: &'a mut Rng,
    both: Both,
    tables: &'a mut Tally,
    loads: &'a mut Tally,
    finds: &'a mut Tally,
    nears: &'a mut Tally,
}

impl Run<'_> {
    /// A table of the world, or any file.
    fn offer(&mut self) {
        let at = 1 + self.rng.below(self.world.tables.len() - 1);
        let file = if self.rng.below(2) == 0 { any_file(self.rng) } else { file_of(self.world.tables[at].rows()) };
        self.both.load_table(self.tables, &file);
    }

    /// Mostly a package whose line is valid under the store's table.
    fn some_post(&mut self) -> usize {
        let (posts, table) = (&self.world.posts, table_of(self.both.image()));
        let drawn = [(); 8].map(|()| self.rng.below(posts.len()));
        drawn.into_iter().find(|&at| posts[at].profile.is_valid(&table)).unwrap_or(drawn[0])
    }

    /// A package for its own device, and now and then for another class or other hertz.
    fn load(&mut self) {
        let Post { profile, package } = &self.world.posts[self.some_post()];
        let mut device = Device::of(profile);
        match self.rng.below(8) {
            0 => device.class = self.rng.below(400) as u32,
            1 => device.class = 65 + self.rng.below(26) as u32,
            2 => device.hertz = NOMINAL_HERTZ[self.rng.below(2)],
            _ => (),
        }
        self.both.load(self.loads, Sent { key: &self.world.key, package }, &device, &|_, _, _| 0);
    }

    /// Every letter of every country at both hertz, one class that there is not, and the nearest to some volts.
    fn find_all(&mut self) {
        let table = self.both.image()[SLOTS..].try_into().expect("a table");
        for country in COUNTRIES {
            for hertz in NOMINAL_HERTZ {
                for class in (64..=91).chain([65 + 256, 44, 300]) {
                    let answer = self.both.find(self.finds, &Device { country, class, hertz });
                    assert_eq!(answer == 10, !is_letter(&table, class), "{class}");
                }
                for volts in [100 + self.rng.below(901) as u32, 230, 750, 1_000] {
                    self.both.nearest(self.nears, &Measured { country, hertz, volts }, 84);
                }
            }
        }
    }
}

/// Runs of 40 calls. Half of them begin with the empty store, the others with any table and no profile.
fn runs_at(category: &Category, runs: usize, posts: usize) {
    let names = ["load_table, runs", "load, runs", "lookup, runs", "nearest, runs"];
    let [mut tables, mut loads, mut finds, mut nears] =
        names.map(|name| category.tally(&format!("{name} under tables")));
    let mut rng = Rng::new(0x7275_6E74);
    let world = World::new(category, &mut rng, posts);
    for turn in 0..runs {
        let mut image = vec![0; STORE];
        if turn % 2 == 1 {
            image[SLOTS..].copy_from_slice(&any_image(&mut rng));
        }
        let both = Both::from(category, &image);
        let (tables, loads, finds, nears) = (&mut tables, &mut loads, &mut finds, &mut nears);
        let mut run = Run { world: &world, rng: &mut rng, both, tables, loads, finds, nears };
        for call in 0..40 {
            // at first only tables, so that one is taken; then packages, which end that
            if call < 3 || run.rng.below(8) == 0 {
                run.offer();
            } else {
                run.load();
            }
            run.find_all();
        }
    }
    tables.finish(4 * runs, &[0, 13, 14]);
    loads.finish(30 * runs, &[0, 5, 6, 7, 10]);
    finds.finish(40 * 6 * 31 * runs, &[0, 9, 10]);
    nears.finish(40 * 24 * runs, &[0, 9]);
}

#[test]
fn runs() {
    for (category, (runs, posts)) in CATEGORIES.iter().zip([(120, 320), (24, 120), (16, 96)]) {
        runs_at(category, runs, posts);
    }
}
