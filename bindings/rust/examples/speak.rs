//! Speaks a phrase of a ROM image into a WAV file: speak VOICE OUT ROM ADDRESS, as `./speak` calls it.
use std::{env, ffi::OsString, fmt::Display, fs, fs::File, io, io::Read, io::Write, process::ExitCode};
use tms5220::{BitOrder, Chip, Device, Image, Phrase, Refusal, Voice, SAMPLE_RATE};

/// Makes 16 bits of the chip's 10.
const LOUDER: i16 = 64;
/// One byte more than the library takes, so that what is too long is seen to be so, and an endless file ends.
const MOST_BYTES: u64 = 262_145;

struct Asked {
    voice: OsString,
    out: OsString,
    rom: OsString,
    address: usize,
    /// As it was asked for.
    address_word: String,
}

/// A number with more digits than fit lies past every image, as the largest one does.
fn address_of(word: &str) -> Option<usize> {
    let (digits, radix) = match word.strip_prefix("0x").or_else(|| word.strip_prefix("0X")) {
        Some(digits) => (digits, 16),
        None => (word, 10),
    };
    let is_number = !digits.is_empty() && digits.chars().all(|digit| digit.is_digit(radix));
    is_number.then(|| usize::from_str_radix(digits, radix).unwrap_or(usize::MAX))
}

fn asked() -> Option<Asked> {
    let [voice, out, rom, address]: [OsString; 4] = env::args_os().skip(1).collect::<Vec<_>>().try_into().ok()?;
    let address_word = address.into_string().ok()?;
    let address = address_of(&address_word)?;
    Some(Asked { voice, out, rom, address, address_word })
}

fn is_standard(path: &OsString) -> bool {
    path == "-"
}

fn name_of(path: &OsString) -> String {
    path.to_string_lossy().into()
}

/// A reason behind the name of what it is about.
fn about<E: Display>(name: String) -> impl FnOnce(E) -> String {
    move |reason| format!("{name}: {reason}")
}

fn bytes_from(source: impl Read) -> io::Result<Vec<u8>> {
    let mut bytes = Vec::new();
    source.take(MOST_BYTES).read_to_end(&mut bytes)?;
    Ok(bytes)
}

fn rom_bytes(path: &OsString) -> io::Result<Vec<u8>> {
    if is_standard(path) {
        bytes_from(io::stdin())
    } else {
        bytes_from(File::open(path)?)
    }
}

fn find(rom: &[u8], address: usize) -> Result<(Image<'_>, Phrase<'_>), Refusal> {
    let image = Image::new(rom)?;
    Ok((image, image.walk(address)?))
}

/// Why no phrase is found at an address.
fn no_phrase(address: &str, refusal: Refusal) -> String {
    match refusal {
        Refusal::Beyond => format!("address {address} is at or past the end of the image"),
        Refusal::NoPhrase { .. } => format!("no phrase at address {address}: {refusal}"),
        _ => refusal.to_string(),
    }
}

/// The samples of a phrase, by the chip.
fn spoken(image: Image, voice: Voice, phrase: &Phrase) -> Vec<i16> {
    let mut chip = Chip::power_up(Device::Tms5220, BitOrder::MostFirst);
    chip.speak(image, phrase.range().start).expect("an idle chip speaks a phrase that is there");
    let mut samples = vec![0; phrase.samples()];
    chip.run(image, voice, &mut samples);
    samples
}

fn wav(samples: &[i16]) -> Vec<u8> {
    let size = 2 * samples.len() as u32;
    let mut bytes = Vec::with_capacity(44 + size as usize);
    bytes.extend(b"RIFF");
    bytes.extend((36 + size).to_le_bytes());
    bytes.extend(b"WAVEfmt ");
    bytes.extend(16u32.to_le_bytes());
    bytes.extend(1u16.to_le_bytes()); // PCM
    bytes.extend(1u16.to_le_bytes()); // channels
    bytes.extend(SAMPLE_RATE.to_le_bytes());
    bytes.extend((2 * SAMPLE_RATE).to_le_bytes()); // bytes a second
    bytes.extend(2u16.to_le_bytes()); // bytes a sample
    bytes.extend(16u16.to_le_bytes()); // bits a sample
    bytes.extend(b"data");
    bytes.extend(size.to_le_bytes());
    bytes.extend(samples.iter().flat_map(|sample| (sample * LOUDER).to_le_bytes()));
    bytes
}

fn told(phrase: &Phrase, samples: &[i16]) -> String {
    let peak = samples.iter().map(|sample| sample.unsigned_abs()).max().unwrap_or(0);
    let clipped = samples.iter().filter(|&&sample| sample == -512 || sample == 511).count();
    format!(
        "address {}, frames {}, samples {}, seconds {:.3}, peak {peak}, clipped {clipped}",
        phrase.range().start,
        phrase.frame_count(),
        samples.len(),
        samples.len() as f64 / f64::from(SAMPLE_RATE),
    )
}

/// Standard output has the samples, or the line that tells of them.
fn hand_out(out: &OsString, samples: &[i16], told: &str) -> Result<(), String> {
    let cannot_be_written = |error| format!("cannot be written: {error}");
    let mut output = io::stdout();
    if is_standard(out) {
        let written = output.write_all(&wav(samples)).and_then(|()| output.flush());
        written.map_err(cannot_be_written).map_err(about("standard output".into()))?;
        eprintln!("{told}");
        return Ok(());
    }
    fs::write(out, wav(samples)).map_err(cannot_be_written).map_err(about(name_of(out)))?;
    let written = writeln!(output, "{}: {told}", name_of(out));
    written.map_err(cannot_be_written).map_err(about("standard output".into()))
}

fn run(asked: &Asked) -> Result<(), String> {
    let rom_name = if is_standard(&asked.rom) { "standard input".into() } else { name_of(&asked.rom) };
    let file = File::open(&asked.voice).and_then(bytes_from).map_err(about(name_of(&asked.voice)))?;
    let voice = Voice::new(&file).map_err(about(name_of(&asked.voice)))?;
    let rom = rom_bytes(&asked.rom).map_err(about(rom_name.clone()))?;
    let found = find(&rom, asked.address).map_err(|refusal| no_phrase(&asked.address_word, refusal));
    let (image, phrase) = found.map_err(about(rom_name))?;
    let samples = spoken(image, voice, &phrase);
    hand_out(&asked.out, &samples, &told(&phrase, &samples))
}

fn main() -> ExitCode {
    let Some(asked) = asked() else {
        eprintln!("speak: VOICE OUT ROM ADDRESS are wanted");
        return ExitCode::from(2);
    };
    match run(&asked) {
        Ok(()) => ExitCode::SUCCESS,
        Err(message) => {
            eprintln!("speak: {message}");
            ExitCode::FAILURE
        }
    }
}
