//! The list of calls that is made for either mix: submits to all four queues, refused calls, turns and looks.
//! Its public fields are the same for every mix.
use peng_robinson_board::{Kind, Phase, Refusal, Request, BLOCK_BYTES, QUEUES, RECORD_BYTES};

use crate::mixes::Mix;
use crate::public::Call;

fn submit(queue: u64, request: &Request) -> Call {
    Call::Submit {
        queue,
        kind: request.kind(),
        n: request.components(),
        block: request.block().to_vec(),
    }
}

fn turns(count: u64) -> impl Iterator<Item = Call> {
    (0..count).map(|_| Call::Turn {
        buffer: RECORD_BYTES,
    })
}

/// The request's block with its first fraction put to 70, as if percentages had been filed. The writer refuses such
/// numbers; the board takes the job and refuses it by 17, in the sealed part.
fn in_percent(request: &Request) -> Vec<u8> {
    let mut block = request.block().to_vec();
    // the third pair of offset and length is that of the fractions
    let at = usize::from(u16::from_le_bytes([block[8], block[9]]));
    block[at..at + 8].copy_from_slice(&70f64.to_le_bytes());
    block
}

/// The calls for a mix. With `percent` the second job of queue 2 has fractions that do not add up to 1.
pub fn calls(mix: &Mix, percent: bool) -> Result<Vec<Call>, Refusal> {
    let liquid = mix.spinodal(Phase::Liquid)?;
    let vapor = mix.spinodal(Phase::Vapor)?;
    let mut calls = vec![
        submit(0, &liquid),
        submit(1, &mix.liquid_density()?),
        submit(2, &mix.critical_point_of_main_component()?),
        submit(3, &mix.stable_density()?),
    ];
    let mut unfit = submit(2, &vapor);
    if let (true, Call::Submit { block, .. }) = (percent, &mut unfit) {
        *block = in_percent(&vapor);
    }
    calls.push(unfit);
    calls.extend([
        submit(2, &mix.critical_point()?),
        submit(2, &mix.critical_line_at_temperature()?),
        submit(2, &mix.critical_line_at_pressure()?),
    ]);
    // queue 0 holds eight with these, so the ninth is refused
    calls.extend((0..7).map(|i| submit(0, if i % 2 == 0 { &vapor } else { &liquid })));
    calls.push(submit(0, &liquid));

    // the other refusals of the caller's
    let of = |queue, kind, n, length| {
        let mut block = liquid.block().to_vec();
        block.truncate(length);
        Call::Submit {
            queue,
            kind,
            n,
            block,
        }
    };
    calls.extend([
        of(4, 4, 2, BLOCK_BYTES),
        of(1, 0, 2, BLOCK_BYTES),
        of(1, 4, 9, BLOCK_BYTES),
        of(1, 4, 2, BLOCK_BYTES - 1),
        Call::Turn {
            buffer: RECORD_BYTES - 1,
        },
        Call::Look { queue: 4 },
        Call::Look { queue: 3 },
    ]);

    // after 34 turns queues 0 and 1 have had nine, of which the catalogue mix's searches needed eight
    calls.extend(turns(34));
    calls.extend((0..QUEUES).map(|queue| Call::Look { queue }));
    // until the longest job, that of queue 3, is out
    calls.extend(turns(QUEUES * Kind::StableDensity.span() - 34));
    calls.extend((0..QUEUES).map(|queue| Call::Look { queue }));
    Ok(calls)
}
