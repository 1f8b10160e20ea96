//! Elements that are connected by index.

use crate::packet::{Packet, Pool};

#[derive(Clone, Copy)]
pub struct Port {
    pub element: usize,
    pub port: usize,
}

/// The ports that an element is connected to.
#[derive(Default)]
pub struct Joints {
    pub outputs: Vec<Port>,
    pub inputs: Vec<Port>,
}

pub trait Element {
    fn joints(&self) -> &Joints;

    fn joints_mut(&mut self) -> &mut Joints;

    /// Does the work of an element with one input and one output.
    fn simple_action(&self, _router: &Router, packet: Box<Packet>) -> Option<Box<Packet>> {
        Some(packet)
    }

    fn push(&self, router: &Router, _port: usize, packet: Box<Packet>) {
        if let Some(packet) = self.simple_action(router, packet) {
            router.push(self.joints(), 0, packet);
        }
    }

    fn pull(&self, router: &Router, _port: usize) -> Option<Box<Packet>> {
        let packet = router.pull(self.joints(), 0)?;
        self.simple_action(router, packet)
    }

    fn has_task(&self) -> bool {
        false
    }

    fn run_task(&self, _router: &Router) -> u64 {
        0
    }

    fn counts(&self) -> (u64, u64) {
        (0, 0)
    }
}

pub struct Router {
    pub elements: Vec<Box<dyn Element>>,
    pub tasks: Vec<usize>,
    pub sources: Vec<(Vec<u8>, usize)>,
    pub sinks: Vec<(Vec<u8>, usize)>,
    pub pool: Pool,
}

impl Router {
    pub fn new() -> Router {
        Router {
            elements: Vec::new(),
            tasks: Vec::new(),
            sources: Vec::new(),
            sinks: Vec::new(),
            pool: Pool::default(),
        }
    }

    pub fn add(&mut self, element: impl Element + 'static) -> usize {
        self.elements.push(Box::new(element));
        self.elements.len() - 1
    }

    /// Connects an output to an input.
    pub fn join(&mut self, from: usize, output: usize, to: usize, input: usize) {
        let outputs = &mut self.elements[from].joints_mut().outputs;
        assert_eq!(outputs.len(), output);
        outputs.push(Port { element: to, port: input });
        let inputs = &mut self.elements[to].joints_mut().inputs;
        assert_eq!(inputs.len(), input);
        inputs.push(Port { element: from, port: output });
    }

    pub fn chain(&mut self, elements: &[usize]) {
        for pair in elements.windows(2) {
            self.join(pair[0], 0, pair[1], 0);
        }
    }

    pub fn note_tasks(&mut self) {
        self.tasks = (0..self.elements.len()).filter(|&at| self.elements[at].has_task()).collect();
    }

    #[inline(always)]
    pub fn push(&self, joints: &Joints, output: usize, packet: Box<Packet>) {
        let Some(far) = joints.outputs.get(output) else {
            return self.pool.give(packet);
        };
        self.elements[far.element].push(self, far.port, packet);
    }

    #[inline(always)]
    pub fn pull(&self, joints: &Joints, input: usize) -> Option<Box<Packet>> {
        let far = joints.inputs.get(input)?;
        self.elements[far.element].pull(self, far.port)
    }

    pub fn enter(&self, device: &[u8], packet: &Packet) -> bool {
        let Some((_, at)) = self.sources.iter().find(|(name, _)| name == device) else {
            return false;
        };
        let mut copy = self.pool.take();
        copy.copy_from(packet);
        self.push(self.elements[*at].joints(), 0, copy);
        true
    }

    pub fn transmit(&self, device: &[u8]) -> Option<Box<Packet>> {
        let (_, at) = self.sinks.iter().find(|(name, _)| name == device)?;
        self.pull(self.elements[*at].joints(), 0)
    }

    pub fn round(&self) -> u64 {
        self.tasks.iter().map(|&at| self.elements[at].run_task(self)).sum()
    }

    pub fn counts(&self) -> (u64, u64) {
        self.elements
            .iter()
            .map(|element| element.counts())
            .fold((0, 0), |sum, one| (sum.0 + one.0, sum.1 + one.1))
    }
}
