//! The types of joc_spatial_bridge.rs that extent.rs and region.rs use, with the fields that the
//! original's have, since a call clones and compares them. A layout is what questions 1 to 6 of
//! document 01 accept, without routes and aliases; the point gains are lent by the caller and stand in
//! the descriptor, where a clone shares them.
use std::rc::Rc;

#[derive(Clone, Debug, Eq, PartialEq)]
pub enum SpatialSourceClass {
    DynamicPoint,
    DynamicRegion,
    Unsupported(String),
}

#[derive(Clone, Debug, PartialEq)]
pub struct SpatialSpreadProfile {
    pub samples: Vec<f64>,
}

#[derive(Clone, Debug, PartialEq)]
pub struct SpatialPairedGeometry {
    pub first: Vec<f64>,
    pub second: Vec<f64>,
    pub blend: f64,
}

#[derive(Clone, Debug, PartialEq)]
pub struct SpatialDescriptor {
    pub source_class: SpatialSourceClass,
    pub identity: String,
    pub coordinates: Vec<f64>,
    pub spread: Option<SpatialSpreadProfile>,
    pub paired: Option<SpatialPairedGeometry>,
    pub pair_span_q15: Option<u16>,
    pub raw3: Option<Vec<u8>>,
    pub extent: Option<[f64; 3]>,
    pub zones: Option<[bool; 6]>,
    pub channel_lock: bool,
    pub point_gains: Rc<Vec<f64>>,
}

impl SpatialDescriptor {
    /// A wide object.
    pub fn wide(centre: [f64; 3], extent: [f64; 3], zones: Option<[bool; 6]>, points: &[f64]) -> Self {
        Self {
            source_class: SpatialSourceClass::DynamicPoint,
            identity: "object".to_owned(),
            coordinates: centre.to_vec(),
            spread: None,
            paired: None,
            pair_span_q15: None,
            raw3: None,
            extent: Some(extent),
            zones,
            channel_lock: false,
            point_gains: Rc::new(points.to_vec()),
        }
    }
}

#[derive(Clone, Debug, Eq, PartialEq)]
pub struct SpatialLayoutChannel {
    pub identity: String,
    pub enabled: bool,
    pub lfe: bool,
}

#[derive(Clone, Debug, PartialEq)]
pub struct SpatialLayoutAnchor {
    pub identity: String,
    pub x: f64,
    pub y: f64,
    pub z: f64,
}

impl SpatialLayoutAnchor {
    /// An anchor at x; `SpatialLayout::of` gives it its row's y and its layer's z.
    pub fn at(identity: String, x: f64) -> Self {
        Self { identity, x, y: 0.0, z: 0.0 }
    }
}

#[derive(Clone, Debug, PartialEq)]
pub struct SpatialLayoutRow {
    pub y: f64,
    pub anchors: Vec<SpatialLayoutAnchor>,
}

#[derive(Clone, Debug, PartialEq)]
pub struct SpatialLayoutLayer {
    pub z: f64,
    pub rows: Vec<SpatialLayoutRow>,
}

#[derive(Clone, Debug, PartialEq)]
pub struct SpatialLayoutAlias {
    pub identity: String,
    pub target_identity: String,
    pub x: f64,
    pub y: f64,
    pub z: f64,
}

#[derive(Clone, Debug, Default, PartialEq)]
pub struct SpatialLayoutTopology {
    pub layers: Vec<SpatialLayoutLayer>,
    pub aliases: Vec<SpatialLayoutAlias>,
}

#[derive(Clone, Debug, PartialEq)]
pub struct SpatialRouteVector {
    pub identity: String,
    pub vector: Vec<f64>,
}

#[derive(Clone, Debug, PartialEq)]
pub struct SpatialProjectionOutcome {
    pub target: Vec<f64>,
    pub effective_position: Option<[f64; 3]>,
    pub locked_output: Option<usize>,
}

#[derive(Clone, Debug, PartialEq)]
pub enum SpatialProjectionError {
    InvalidLayout(&'static str),
    InvalidExtent,
    InvalidRegionState([bool; 6]),
    InvalidPair,
    UnsupportedChannelLock,
    UnsupportedExtent,
    UnsupportedRegionLayout(&'static str),
    UnadmittedLayerPolicy,
    MissingAnchor(String),
    CoordinateDimension { expected: usize, actual: usize },
    NonFiniteCoordinate { axis: usize },
}

#[derive(Clone, Debug, PartialEq)]
pub struct SpatialLayout {
    pub channels: Vec<SpatialLayoutChannel>,
    pub active_indices: Vec<usize>,
    pub topology: SpatialLayoutTopology,
    pub coordinate_dimension: usize,
    pub route_vectors: Vec<SpatialRouteVector>,
    pub named_fallback_parameters: [i16; 24],
    pub allow_legacy_duplicate_anchors: bool,
    pub use_actual_two_layer_heights: bool,
}

impl SpatialLayout {
    /// A layout of three dimensions without routes and aliases, in which a channel may have several
    /// anchors.
    pub fn of(channels: Vec<SpatialLayoutChannel>, mut layers: Vec<SpatialLayoutLayer>) -> Self {
        for layer in &mut layers {
            for row in &mut layer.rows {
                for anchor in &mut row.anchors {
                    (anchor.y, anchor.z) = (row.y, layer.z);
                }
            }
        }
        let active = |(i, c): (usize, &SpatialLayoutChannel)| (c.enabled && !c.lfe).then_some(i);
        Self {
            active_indices: channels.iter().enumerate().filter_map(active).collect(),
            channels,
            topology: SpatialLayoutTopology { layers, aliases: Vec::new() },
            coordinate_dimension: 3,
            route_vectors: Vec::new(),
            named_fallback_parameters: [0; 24],
            allow_legacy_duplicate_anchors: true,
            use_actual_two_layer_heights: false,
        }
    }
    pub fn channels(&self) -> &[SpatialLayoutChannel] {
        &self.channels
    }
    pub fn topology(&self) -> &SpatialLayoutTopology {
        &self.topology
    }
    pub fn coordinate_dimension_count(&self) -> usize {
        self.coordinate_dimension
    }
    pub fn project_unconstrained(&self, descriptor: &SpatialDescriptor) -> Result<Vec<f64>, SpatialProjectionError> {
        Ok(descriptor.point_gains.to_vec())
    }
    pub fn with_constrained_topology(&self, topology: SpatialLayoutTopology) -> Result<Self, SpatialProjectionError> {
        Ok(Self { topology, ..self.clone() })
    }
    pub fn point_position(&self, coordinates: &[f64]) -> Result<[f64; 3], SpatialProjectionError> {
        Ok([coordinates[0], coordinates[1], coordinates[2]])
    }
    pub fn channel_lock_outcome(
        &self,
        _: &SpatialDescriptor,
        _: Vec<f64>,
    ) -> Result<SpatialProjectionOutcome, SpatialProjectionError> {
        Err(SpatialProjectionError::UnsupportedChannelLock)
    }
}
