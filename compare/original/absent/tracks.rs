use super::Node;

#[derive(Debug, Clone)]
pub struct Track {
    pub id: Option<String>,
    pub node: Node,
    pub gain: f32,
}

#[derive(Debug, Clone)]
pub struct Bus {
    pub effects: Vec<Node>,
}

pub struct AutoCurve;
pub struct AutoLane;
pub struct AutoPoint;
pub struct AutoTarget;
pub struct Send;
pub struct Sidechain;
