//! The image writer: its two refusals, the untouched buffer, and the way back (rules I11 and I12).

mod common;

use common::worked_config;
use twin::core::config::{Config, Slot, VmPlace, SPARE};
use twin::core::flaw::Flaw;
use twin::core::limits::MAX_IMAGE_BYTES;
use twin::generate::image::legal_config;
use twin::generate::random::Random;
use twin::image::read::read_image;
use twin::image::write::write_image;

fn refusal(config: &Config, length: usize) -> u8 {
    let mut buffer = vec![0x5a; length];
    let refusal = write_image(config, &mut buffer, Flaw::None).expect_err("refused");
    assert!(buffer.iter().all(|byte| *byte == 0x5a), "a refusal leaves the buffer alone");
    refusal
}

/// I11: every length that is too short; the buffer stays.
#[test]
fn short_buffers_are_30() {
    for length in 0..34 {
        assert_eq!(refusal(&worked_config(), length), 30);
    }
}

/// S1 to S7, I11: each size broken by itself is 31, for a short buffer too.
#[test]
fn every_size_is_tested_before_the_buffer() {
    let changes: [fn(&mut Config); 15] = [
        |config| config.vm_count = 0,
        |config| config.vm_count = 9,
        |config| config.queue_size = 17,
        |config| config.slot_count = 0,
        |config| config.slot_count = 65,
        |config| config.slots[0].owner = 2,
        |config| config.slots[0].ticks = 0,
        |config| config.slots[0].ticks = 1_001,
        |config| config.slots[2].ticks = 2,
        |config| config.slots[1].owner = 0,
        |config| config.vms[2].handler = 1,
        |config| config.slots[63] = Slot { owner: 0, ticks: 1 },
        // No VM, all slots spare; nine VMs, a slot for each; a slot of nobody beside those of all VMs.
        |config| {
            (config.vm_count, config.vms) = (0, [VmPlace::default(); 8]);
            config.slots[..3].fill(Slot { owner: SPARE, ticks: 1 });
        },
        |config| {
            (config.vm_count, config.slot_count) = (9, 9);
            (0..9).for_each(|vm: u8| config.slots[usize::from(vm)] = Slot { owner: vm, ticks: 1 });
        },
        |config| config.slots[2] = Slot { owner: 2, ticks: 1 },
    ];
    for (index, change) in changes.into_iter().enumerate() {
        let mut config = worked_config();
        change(&mut config);
        assert!(!config.legal(), "change {index}");
        assert_eq!(refusal(&config, 0), 31, "change {index}");
        assert_eq!(refusal(&config, 400), 31, "change {index}");
    }
    assert_eq!(refusal(&Config::zero(), 400), 31);
}

/// S7, I12: what is written is read again as it was, and the bytes behind it stay.
#[test]
fn legal_configurations_come_back_from_their_image() {
    for number in 0..500 {
        let config = legal_config(&mut Random::of_case(11, number));
        assert!(config.legal());
        let mut buffer = [0x5a; MAX_IMAGE_BYTES + 3];
        let length = write_image(&config, &mut buffer, Flaw::None).expect("legal, and room enough");
        assert!(length <= MAX_IMAGE_BYTES);
        assert_eq!(read_image(&buffer[..length], Flaw::None), Ok(config));
        assert!(buffer[length..].iter().all(|byte| *byte == 0x5a));
    }
}

/// S8, I3: an address of any 32 bits is written and read again.
#[test]
fn any_address_comes_back() {
    for entry in [0, 1, 0x0102_0304, 0x8000_0000, u32::MAX] {
        let mut config = worked_config();
        config.vms[1] = VmPlace { entry, handler: !entry };
        let mut buffer = [0; 34];
        assert_eq!(write_image(&config, &mut buffer, Flaw::None), Ok(34));
        assert_eq!(buffer[13..17], entry.to_le_bytes());
        assert_eq!(buffer[17..21], (!entry).to_le_bytes());
        assert_eq!(read_image(&buffer, Flaw::None), Ok(config));
    }
}
