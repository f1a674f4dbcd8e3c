//! Comparisons of viewer_emitter_hit, which is lent light records of fifteen words each, `args` and `out`.

mod cases;
pub mod check;
mod judge;
pub mod rays;
mod refusals;

/// Everything that is chosen, then so many random rays.
pub fn run(rays: usize) -> Result<String, String> {
    let (chosen, refused) = (cases::run()?, refusals::run()?);
    let rays = rays::run(rays)?;
    Ok(format!("{chosen} chosen, {refused} refusals and lengths; {rays}"))
}
