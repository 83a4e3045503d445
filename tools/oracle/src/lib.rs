//! The original's extent.rs and region.rs with document 01's stand-ins, and the types that they use.
pub mod bench;
pub mod halves;
pub mod random;
pub mod rooms;
pub mod standins;
mod types;

pub use types::*;

#[allow(dead_code, clippy::all)]
pub mod extent {
    use crate::standins::StandIns as _;
    include!(concat!(env!("OUT_DIR"), "/extent.rs"));

    /// The private functions and tables, for the drivers.
    pub mod open {
        /// The numbers of a place of the store: X, Y, Z and the six end responses, each by itself;
        /// without a Z table those of Z are empty.
        pub fn tables(layout: &crate::SpatialLayout) -> [Vec<f64>; 9] {
            let field = super::ExtentFieldCache::build(layout).unwrap();
            let ends = |t: &super::AxisResponseTable, i: usize| t.endpoint_responses[0][i].clone();
            let z = field.z.as_ref();
            [
                field.x.values.clone(),
                field.y.values.clone(),
                z.map_or(Vec::new(), |z| z.values.clone()),
                ends(&field.x, 0),
                ends(&field.x, 1),
                ends(&field.y, 0),
                ends(&field.y, 1),
                z.map_or(Vec::new(), |z| ends(z, 0)),
                z.map_or(Vec::new(), |z| ends(z, 1)),
            ]
        }
        /// Mean and radius of an extent, or the number of the first question, 7 for x, 18 for y and 19 for
        /// z, whose component the original refuses where the other two are 0.
        pub fn read(extent: [f64; 3]) -> Result<(u32, f64), u32> {
            let whole = super::extent_scalar(extent);
            for (i, no) in [7, 18, 19].into_iter().enumerate() {
                let mut alone = [0.0; 3];
                alone[i] = extent[i];
                if super::extent_scalar(alone).is_err() {
                    assert!(whole.is_err());
                    return Err(no);
                }
            }
            let (mean, scalar) = whole.unwrap();
            Ok((mean, super::extent_radius(scalar)))
        }

        /// A field, with room for chosen numbers in its tables.
        pub struct Field(super::ExtentFieldCache);

        impl Field {
            pub fn build(layout: &crate::SpatialLayout) -> Self {
                Self(super::ExtentFieldCache::build(layout).unwrap())
            }
            pub fn project(&self, layout: &crate::SpatialLayout, descriptor: &crate::SpatialDescriptor) -> Vec<f64> {
                self.0.project(layout, descriptor).unwrap()
            }
            /// The gains where the mean is not 0 and the radius is one of the driver's choice.
            pub fn project_at(&self, layout: &crate::SpatialLayout, descriptor: &crate::SpatialDescriptor, radius: f64) -> Vec<f64> {
                self.0.project_at(layout, descriptor, 1, radius).unwrap()
            }
            /// The field whose numbers are those of a place of the store, for n active channels,
            /// with a Z table or without.
            pub fn of_place(place: &[f64], n: usize, deep: bool) -> Self {
                // the knots are the same for every room: those of a small one with two layers
                let channel = |name: &str| crate::SpatialLayoutChannel { identity: name.to_owned(), enabled: true, lfe: false };
                let layer = |name: &str, z: f64| crate::SpatialLayoutLayer {
                    z,
                    rows: vec![crate::SpatialLayoutRow {
                        y: 0.0,
                        anchors: vec![crate::SpatialLayoutAnchor::at(name.to_owned(), 0.0)],
                    }],
                };
                let small = crate::SpatialLayout::of(vec![channel("a"), channel("b")], vec![layer("a", 0.0), layer("b", 1.0)]);
                let mut field = super::ExtentFieldCache::build(&small).unwrap();
                let part = |from: usize, count: usize| place[from * n..(from + count) * n].to_vec();
                let put = |table: &mut super::AxisResponseTable, from: usize, count: usize, ends: usize| {
                    table.channels = n;
                    table.values = part(from, count);
                    table.endpoint_responses = [[part(ends, 1), part(ends + 1, 1)]];
                };
                put(&mut field.x, 0, 700, 1480);
                put(&mut field.y, 700, 700, 1482);
                put(field.z.as_mut().unwrap(), 1400, 80, 1484);
                if !deep {
                    field.z = None;
                }
                field.active_channels = n;
                Self(field)
            }
            /// The k-th number of the table of X.
            pub fn set_x(&mut self, k: usize, value: f64) {
                self.0.x.values[k] = value;
            }
        }

        pub fn radius(scalar: f64) -> f64 {
            super::extent_radius(scalar)
        }
        pub fn kernel(u: f64, center: f64, radius: f64, z_axis: bool) -> f64 {
            super::compact_quartic_kernel(u, center, radius, z_axis)
        }
        pub fn shaped(value: f64, exponent: f64) -> f64 {
            super::shaped(value, exponent)
        }
        pub fn exponent(radius: f64) -> f64 {
            super::shaping_exponent(radius)
        }
        pub fn exp2(value: f64) -> f64 {
            super::approx_exp2(value)
        }
        pub fn log2(value: f64) -> f64 {
            super::approx_log2(value)
        }
    }
}

/// extent.rs with its own calls of powi, log2, sin and cos: only the benchmarks use it.
#[allow(dead_code, clippy::all)]
pub mod original {
    include!(concat!(env!("OUT_DIR"), "/original_extent.rs"));

    pub mod open {
        pub fn exp2(value: f64) -> f64 {
            super::approx_exp2(value)
        }
        pub fn log2(value: f64) -> f64 {
            super::approx_log2(value)
        }
    }
}

#[allow(dead_code, clippy::all)]
pub mod region {
    include!(concat!(env!("OUT_DIR"), "/region.rs"));

    /// What the selector keeps to itself, for the drivers.
    pub mod open {
        use super::{RegionHorizontalState, RegionTopologySelector, SpatialDescriptor, SpatialLayout, SpatialProjectionError};

        /// Whether a horizontal state keeps the speaker of a name; none where it has no class.
        pub fn bed(state: RegionHorizontalState, name: &str, five_x: bool) -> Option<bool> {
            super::matches_bed_state(state, name, five_x).ok()
        }

        /// A call for gains.
        pub fn gains(
            selector: &mut RegionTopologySelector,
            layout: &SpatialLayout,
            descriptor: &SpatialDescriptor,
            epoch: u64,
        ) -> Result<Vec<f64>, SpatialProjectionError> {
            Ok(selector.project_outcome_with_epoch(layout, descriptor, epoch)?.target)
        }
        /// The keys of the extent cache, the oldest first.
        pub fn keys(selector: &RegionTopologySelector) -> Vec<(SpatialLayout, u64)> {
            selector.extent_cache.iter().map(|e| (e.effective.clone(), e.topology_epoch)).collect()
        }
    }
}
