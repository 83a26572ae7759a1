//! Stand-in: the worker pool is not in the text.

pub struct DispatchResult;
pub struct PoolStats;
pub struct WorkerPool;
pub struct WorkerStats;
