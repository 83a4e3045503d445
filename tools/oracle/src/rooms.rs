//! Rooms: the real ones, old ones in which a channel has several anchors, and random ones of any size.
use crate::{
    random::Random, SpatialLayout, SpatialLayoutAnchor, SpatialLayoutChannel, SpatialLayoutLayer, SpatialLayoutRow,
};

/// Names in list order, `lfe` and `off` after a colon; then layers, rows and anchors.
type Plan<'a> = (&'a str, &'a [(f64, &'a [(f64, &'a [(&'a str, f64)])])]);

fn room((names, layers): Plan) -> SpatialLayout {
    let channels = names
        .split(' ')
        .map(|entry| {
            let (name, flag) = entry.split_once(':').unwrap_or((entry, ""));
            SpatialLayoutChannel { identity: name.to_owned(), enabled: flag != "off", lfe: flag == "lfe" }
        })
        .collect();
    let layers = layers
        .iter()
        .map(|(z, rows)| SpatialLayoutLayer {
            z: *z,
            rows: rows
                .iter()
                .map(|(y, anchors)| SpatialLayoutRow {
                    y: *y,
                    anchors: anchors.iter().map(|(name, x)| SpatialLayoutAnchor::at((*name).to_owned(), *x)).collect(),
                })
                .collect(),
        })
        .collect();
    SpatialLayout::of(channels, layers)
}

type Rows<'a> = &'a [(f64, &'a [(&'a str, f64)])];
const FRONT: (f64, &[(&str, f64)]) = (0.0, &[("FL", 0.0), ("FC", 0.5), ("FR", 1.0)]);
const BED5: Rows = &[FRONT, (1.0, &[("Ls", 0.0), ("Rs", 1.0)])];
const BED7: Rows = &[FRONT, (0.5, &[("Ls", 0.0), ("Rs", 1.0)]), (1.0, &[("Lb", 0.0), ("Rb", 1.0)])];
const BED9: Rows = &[FRONT, (0.25, &[("Lw", 0.0), ("Rw", 1.0)]), (0.5, &[("Ls", 0.0), ("Rs", 1.0)]), (1.0, &[("Lb", 0.0), ("Rb", 1.0)])];

/// Mono, stereo, 5.1, 7.1, 5.1.2, 7.1.4, 9.1.6 and 22.2; 7.1.4 with a speaker switched off.
pub fn real() -> Vec<SpatialLayout> {
    let plans: [Plan; 9] = [
        ("C", &[(0.0, &[(0.0, &[("C", 0.5)])])]),
        ("FL FR", &[(0.0, &[(0.0, &[("FL", 0.0), ("FR", 1.0)])])]),
        ("FL FR FC LFE:lfe Ls Rs", &[(0.0, BED5)]),
        ("FL FR FC LFE:lfe Ls Rs Lb Rb", &[(0.0, BED7)]),
        ("FL FR FC LFE:lfe Ls Rs TpL TpR", &[(0.0, BED5), (1.0, &[(0.5, &[("TpL", 0.25), ("TpR", 0.75)])])]),
        (
            "FL FR FC LFE:lfe Ls Rs Lb Rb TpFL TpFR TpBL TpBR",
            &[
                (0.0, BED7),
                (1.0, &[(0.25, &[("TpFL", 0.25), ("TpFR", 0.75)]), (0.75, &[("TpBL", 0.25), ("TpBR", 0.75)])]),
            ],
        ),
        (
            "FL FR FC LFE:lfe Ls Rs Lb Rb Lw Rw TpFL TpFR TpSiL TpSiR TpBL TpBR",
            &[
                (0.0, BED9),
                (
                    1.0,
                    &[
                        (0.2, &[("TpFL", 0.25), ("TpFR", 0.75)]),
                        (0.5, &[("TpSiL", 0.25), ("TpSiR", 0.75)]),
                        (0.8, &[("TpBL", 0.25), ("TpBR", 0.75)]),
                    ],
                ),
            ],
        ),
        (
            "FL FR FC LFE1:lfe BL BR FLc FRc BC LFE2:lfe SiL SiR TpFL TpFR TpFC TpC TpBL TpBR TpSiL TpSiR TpBC BtFC BtFL BtFR",
            &[
                (-1.0, &[(0.0, &[("BtFL", 0.0), ("BtFC", 0.5), ("BtFR", 1.0)])]),
                (
                    0.0,
                    &[
                        (0.0, &[("FL", 0.0), ("FLc", 0.25), ("FC", 0.5), ("FRc", 0.75), ("FR", 1.0)]),
                        (0.5, &[("SiL", 0.0), ("SiR", 1.0)]),
                        (1.0, &[("BL", 0.0), ("BC", 0.5), ("BR", 1.0)]),
                    ],
                ),
                (
                    1.0,
                    &[
                        (0.0, &[("TpFL", 0.0), ("TpFC", 0.5), ("TpFR", 1.0)]),
                        (0.5, &[("TpSiL", 0.0), ("TpC", 0.5), ("TpSiR", 1.0)]),
                        (1.0, &[("TpBL", 0.0), ("TpBC", 0.5), ("TpBR", 1.0)]),
                    ],
                ),
            ],
        ),
        (
            "FL FR FC LFE:lfe Ls Rs:off Lb Rb TpFL TpFR TpBL TpBR",
            &[
                (0.0, &[FRONT, (0.5, &[("Ls", 0.0)]), (1.0, &[("Lb", 0.0), ("Rb", 1.0)])]),
                (1.0, &[(0.25, &[("TpFL", 0.25), ("TpFR", 0.75)]), (0.75, &[("TpBL", 0.25), ("TpBR", 0.75)])]),
            ],
        ),
    ];
    plans.into_iter().map(room).collect()
}

/// An array of surrounds on both sides.
const ARRAYS: Rows = &[
    FRONT,
    (0.25, &[("Ls", 0.0), ("Rs", 1.0)]),
    (0.5, &[("Ls", 0.0), ("Rs", 1.0)]),
    (0.75, &[("Ls", 0.0), ("Rs", 1.0)]),
    (1.0, &[("Ls", 0.0), ("Ls", 0.3), ("Rs", 0.7), ("Rs", 1.0)]),
];
/// A rectangle of nodes, each of them some channel's.
const GRID: Rows = &[
    (0.0, &[("FL", 0.0), ("FC", 0.5), ("FR", 1.0)]),
    (0.5, &[("FL", 0.0), ("FC", 0.5), ("FR", 1.0)]),
    (1.0, &[("Ls", 0.0), ("FC", 0.5), ("Rs", 1.0)]),
];

/// Old rooms: twins side by side in a row, twins with another between them, arrays over rows,
/// 7.1 with twins of a layer in the other, 22.2 with twins in three, and a rectangle of nodes.
fn old_plans() -> Vec<SpatialLayout> {
    let plans: [Plan; 6] = [
        ("FL FR", &[(0.0, &[(0.0, &[("FL", 0.0), ("FL", 0.4), ("FR", 0.6), ("FR", 1.0)])])]),
        ("FC FL FR:off", &[(0.0, &[(-0.0, &[("FL", -1.0), ("FC", -0.0), ("FL", 0.75)])])]),
        ("FL FR FC LFE:lfe Ls Rs", &[(0.0, ARRAYS)]),
        (
            "FL FR FC LFE:lfe Ls Rs Lb Rb",
            &[(0.0, BED7), (1.0, &[(0.25, &[("FL", 0.25), ("FR", 0.75)]), (0.75, &[("Lb", 0.25), ("Ls", 0.5), ("Rb", 0.75)])])],
        ),
        (
            "FL FR FC LFE1:lfe BL BR FLc FRc BC LFE2:lfe SiL SiR TpC BtFC",
            &[
                (-1.0, &[(0.0, &[("FL", 0.0), ("BtFC", 0.5), ("FR", 1.0)])]),
                (
                    0.0,
                    &[
                        (0.0, &[("FL", 0.0), ("FLc", 0.25), ("FC", 0.5), ("FRc", 0.75), ("FR", 1.0)]),
                        (0.5, &[("SiL", 0.0), ("SiR", 1.0)]),
                        (1.0, &[("BL", 0.0), ("BC", 0.5), ("BR", 1.0)]),
                    ],
                ),
                (
                    1.0,
                    &[
                        (0.0, &[("FL", 0.0), ("FC", 0.5), ("FR", 1.0)]),
                        (0.5, &[("SiL", 0.0), ("TpC", 0.5), ("SiR", 1.0)]),
                        (1.0, &[("TpC", 0.25), ("TpC", 0.5), ("TpC", 0.75)]),
                    ],
                ),
            ],
        ),
        ("Ls FC FR FL Rs", &[(0.0, GRID), (1.0, GRID)]),
    ];
    plans.into_iter().map(room).collect()
}

/// Every anchor on one channel, the second of three; `layers` has how many each row of each layer has.
fn on_one(name: &str, layers: &[&[usize]]) -> SpatialLayout {
    let steps = |count: usize| (0..count).map(move |i| if count == 1 { 0.5 } else { i as f64 / (count - 1) as f64 });
    let row = |(y, &count): (f64, &usize)| SpatialLayoutRow {
        y,
        anchors: steps(count).map(|x| SpatialLayoutAnchor::at(name.to_owned(), x)).collect(),
    };
    let layer = |(z, rows): (usize, &&[usize])| SpatialLayoutLayer {
        z: z as f64 / 4.0,
        rows: steps(rows.len()).zip(rows.iter()).map(row).collect(),
    };
    let channel = |name: &str| SpatialLayoutChannel { identity: name.to_owned(), enabled: true, lfe: false };
    SpatialLayout::of(vec![channel("FR"), channel(name), channel("Rs")], layers.iter().enumerate().map(layer).collect())
}

/// Rooms in which a channel has several anchors, up to all 24 on one.
pub fn old() -> Vec<SpatialLayout> {
    let mut list = old_plans();
    list.push(on_one("FC", &[&[24]]));
    list.push(on_one("Ls", &[&[4, 4, 4], &[4, 4, 4]]));
    list.push(on_one("BC", &[&[1; 6], &[1; 6], &[1; 6], &[1; 6]]));
    list.push(on_one("TpC", &[&[2, 3, 2], &[10], &[7]]));
    list
}

/// Rooms whose selection turns on a channel that is not active, switched off, LFE or both: 5.1 with one of the
/// six names that a five-x room has none of, and a floor with a layer below it and FLc.
pub fn inactive() -> Vec<SpatialLayout> {
    let bed = "FL FR FC LFE:lfe Ls Rs";
    let below = "FL FR FC Ls Rs BtFL BtFR";
    let mut list = Vec::new();
    for name in ["Lb", "Rb", "BL", "BR", "Lw", "Rw", "FLc"] {
        for (enabled, lfe) in [(false, false), (true, true), (false, true)] {
            let mut l = if name == "FLc" {
                room((below, &[(-1.0, &[(0.0, &[("BtFL", 0.0), ("BtFR", 1.0)])]), (0.0, BED5)]))
            } else {
                room((bed, &[(0.0, BED5)]))
            };
            l.channels.push(SpatialLayoutChannel { identity: name.to_owned(), enabled, lfe });
            list.push(l);
        }
    }
    list
}

/// Rooms with up to six rows in a layer, the most that there may be, and with more in one of the layers, in
/// several and in all, where nothing else is wrong. Each row has one anchor.
pub fn rows() -> Vec<SpatialLayout> {
    let counts: [&[usize]; 20] = [
        &[6],
        &[7],
        &[8],
        &[24],
        &[6, 6],
        &[7, 6],
        &[6, 7],
        &[1, 7],
        &[12, 12],
        &[6, 6, 6],
        &[7, 6, 6],
        &[6, 7, 6],
        &[6, 6, 7],
        &[7, 7, 7],
        &[6, 6, 6, 6],
        &[7, 6, 6, 5],
        &[5, 7, 6, 6],
        &[6, 5, 7, 6],
        &[6, 6, 5, 7],
        &[1, 1, 1, 7],
    ];
    let of = |rows: &&[usize]| {
        let layers: Vec<Vec<usize>> = rows.iter().map(|&count| vec![1; count]).collect();
        on_one("FC", &layers.iter().map(Vec::as_slice).collect::<Vec<_>>())
    };
    counts.iter().map(of).collect()
}

const NAMES: [&str; 40] = [
    "FL", "FR", "FC", "Ls", "Rs", "Lb", "Rb", "BL", "BR", "BC", "SiL", "SiR", "Lw", "Rw", "FLc", "FRc", "TpFL", "TpFR",
    "TpFC", "TpC", "TpBL", "TpBR", "TpBC", "TpSiL", "TpSiR", "BtFC", "BtFL", "BtFR", "a", "b", "c", "d", "e", "f", "g",
    "eightlet", "~", "!", "Z9", "x.y",
];

/// Ascending coordinates from -1 to 1; now and then one at an end, at 0 or at -0.
fn ascending(random: &mut Random, count: usize) -> Vec<f64> {
    loop {
        let mut list: Vec<f64> = (0..count)
            .map(|_| match random.below(12) {
                0 => -1.0,
                1 => 1.0,
                2 => 0.0,
                3 => -0.0,
                4 | 5 => random.below(9) as f64 / 8.0,
                6 | 7 => random.unit(),
                _ => 2.0 * random.unit() - 1.0,
            })
            .collect();
        list.sort_by(f64::total_cmp);
        if list.windows(2).all(|w| w[0] < w[1]) {
            return list;
        }
    }
}

/// A room that questions 1 to 6 accept, with at most `most` channels, each with one anchor or none.
pub fn random(random: &mut Random, most: u64) -> SpatialLayout {
    let count = 1 + random.below(most) as usize;
    let mut names: Vec<&str> = NAMES.to_vec();
    for i in 0..names.len() {
        let j = i + random.below((names.len() - i) as u64) as usize;
        names.swap(i, j);
    }
    let mut channels: Vec<SpatialLayoutChannel> = names[..count]
        .iter()
        .map(|name| {
            let odd = random.below(12);
            SpatialLayoutChannel { identity: (*name).to_owned(), enabled: odd != 0, lfe: odd == 1 }
        })
        .collect();
    if !channels.iter().any(|c| c.enabled && !c.lfe) {
        channels[0].enabled = true;
        channels[0].lfe = false;
    }
    let mut free: Vec<String> = channels.iter().filter(|c| c.enabled && !c.lfe).map(|c| c.identity.clone()).collect();
    for i in 0..free.len() {
        let j = i + random.below((free.len() - i) as u64) as usize;
        free.swap(i, j);
    }
    // an active channel needs no anchor
    if random.below(4) == 0 && free.len() > 1 {
        free.truncate(1 + random.below(free.len() as u64 - 1) as usize);
    }
    let depth = (1 + random.below(4) as usize).min(free.len());
    let zs = ascending(random, depth);
    let mut layers: Vec<SpatialLayoutLayer> =
        zs.into_iter().map(|z| SpatialLayoutLayer { z, rows: Vec::new() }).collect();
    // each layer gets an anchor, and each of the others goes into some layer
    let mut sizes = vec![1usize; depth];
    for _ in depth..free.len() {
        sizes[random.below(depth as u64) as usize] += 1;
    }
    for (layer, size) in layers.iter_mut().zip(sizes) {
        let rows = 1 + random.below(size.min(6) as u64) as usize;
        let mut counts = vec![1usize; rows];
        for _ in rows..size {
            counts[random.below(rows as u64) as usize] += 1;
        }
        let ys = ascending(random, rows);
        for (y, count) in ys.into_iter().zip(counts) {
            let xs = ascending(random, count);
            let anchors = xs.into_iter().map(|x| SpatialLayoutAnchor::at(free.pop().unwrap(), x)).collect();
            layer.rows.push(SpatialLayoutRow { y, anchors });
        }
    }
    SpatialLayout::of(channels, layers)
}

/// A room that questions 1 to 6 accept, with at most `most` channels, in which channels that have an
/// anchor get others: in its row, in another one, in a new row or in a new layer, up to 24 anchors.
pub fn twinned(random: &mut Random, most: u64) -> SpatialLayout {
    let SpatialLayout { channels, topology, .. } = self::random(random, most);
    let mut layers = topology.layers;
    let anchors = layers.iter().flat_map(|l| &l.rows).flat_map(|r| &r.anchors);
    let mut names: Vec<String> = anchors.map(|a| a.identity.clone()).collect();
    let anchored = names.len() as u64;
    // now and then all on one channel
    if random.below(4) == 0 {
        names.truncate(1);
    }
    for _ in anchored..24.min(anchored + 1 + random.below(24)) {
        let (x, y, z) = (free_place(random), free_place(random), free_place(random));
        let name = names[random.below(names.len() as u64) as usize].clone();
        let anchor = SpatialLayoutAnchor::at(name, x);
        if layers.len() < 4 && random.below(8) == 0 {
            layers.push(SpatialLayoutLayer { z, rows: vec![SpatialLayoutRow { y, anchors: vec![anchor] }] });
        } else {
            let count = layers.len() as u64;
            let rows = &mut layers[random.below(count) as usize].rows;
            if rows.len() < 6 && random.below(4) == 0 {
                rows.push(SpatialLayoutRow { y, anchors: vec![anchor] });
            } else {
                let count = rows.len() as u64;
                rows[random.below(count) as usize].anchors.push(anchor);
            }
        }
    }
    layers.sort_by(|a, b| a.z.total_cmp(&b.z));
    for layer in &mut layers {
        layer.rows.sort_by(|a, b| a.y.total_cmp(&b.y));
        for row in &mut layer.rows {
            row.anchors.sort_by(|a, b| a.x.total_cmp(&b.x));
        }
    }
    SpatialLayout::of(channels, layers)
}

/// A coordinate that no other is likely to have.
fn free_place(random: &mut Random) -> f64 {
    2.0 * random.unit() - 1.0
}
