//! A task, and the encoder that makes its bytes.
use crate::answer::Refusal;
use crate::engine::ResetRule;
use crate::library::{self, DestinationFields, Fields, SourceFields, SurfaceFields};

/// How many bytes the batch of one task has.
pub const TASK_SIZE: usize = 80;

/// And in the second form, with steps, so many.
pub const SHADED_TASK_SIZE: usize = 100;

/// How a pixel is stored.
#[derive(Clone, Copy, Debug, Default, PartialEq, Eq, Hash)]
pub enum Format {
    /// Four bytes: B, G, R, A.
    #[default]
    Argb8888,
    /// Three bytes: B, G, R.
    Rgb888,
    /// Two bytes, low byte first: R in the highest five bits, G in six, B in five.
    Rgb565,
}

impl Format {
    /// How many bytes a pixel has.
    pub const fn bytes(self) -> u32 {
        match self {
            Format::Argb8888 => 4,
            Format::Rgb888 => 3,
            Format::Rgb565 => 2,
        }
    }

    const fn code(self) -> u32 {
        match self {
            Format::Argb8888 => 0x00,
            Format::Rgb888 => 0x08,
            Format::Rgb565 => 0x0E,
        }
    }
}

/// A rectangle of pixels in memory. The numbers may be any: what a register cannot hold is refused by [`Task::encode`], and what
/// cannot be drawn is a fault when the batch is run.
#[derive(Clone, Copy, Debug, Default, PartialEq, Eq, Hash)]
pub struct Surface {
    /// In pixels.
    pub width: u32,
    /// In pixels.
    pub height: u32,
    /// From a row to the next, in bytes: a multiple of 8.
    pub stride: u32,
    /// The first byte, counted from memory's start.
    pub address: u32,
    /// How its pixels are stored.
    pub format: Format,
}

/// Which alpha a surface's pixels have while they are blended.
#[derive(Clone, Copy, Debug, Default, PartialEq, Eq, Hash)]
pub enum AlphaMode {
    /// The pixel's own.
    #[default]
    Pixel,
    /// The global alpha.
    Global,
    /// The product of both.
    Mixed,
}

/// An alpha mode with its global alpha.
#[derive(Clone, Copy, Debug, Default, PartialEq, Eq, Hash)]
pub struct Alpha {
    /// Which alpha is meant.
    pub mode: AlphaMode,
    /// The global alpha.
    pub global: u8,
}

/// Quarter turns, clockwise.
#[derive(Clone, Copy, Debug, Default, PartialEq, Eq, Hash)]
pub enum Turn {
    /// As it is.
    #[default]
    None,
    /// A quarter clockwise.
    Quarter,
    /// Upside down.
    Half,
    /// A quarter the other way.
    ThreeQuarters,
}

/// How the source is flipped and then turned.
#[derive(Clone, Copy, Debug, Default, PartialEq, Eq, Hash)]
pub struct Transform {
    /// Left and right change places.
    pub flip_h: bool,
    /// Top and bottom change places.
    pub flip_v: bool,
    /// After the flips.
    pub turn: Turn,
}

impl Transform {
    /// The one transform that draws what this one and then `second` draw, for every picture.
    ///
    /// ```
    /// use wenditsal::{Transform, Turn};
    /// let turned = Transform { turn: Turn::Quarter, ..Transform::default() };
    /// let flipped = Transform { flip_h: true, ..Transform::default() };
    /// // A flip after a quarter turn is the other flip before it.
    /// assert_eq!(turned.then(flipped), Transform { flip_v: true, ..turned });
    /// ```
    pub fn then(self, second: Transform) -> Transform {
        Transform::of(library::compose(self.setting(), second.setting()))
    }

    /// The transform that undoes this one.
    ///
    /// ```
    /// use wenditsal::{Transform, Turn};
    /// let turned = Transform { flip_h: true, flip_v: false, turn: Turn::Quarter };
    /// assert_eq!(turned.then(turned.inverse()), Transform::default());
    /// ```
    pub fn inverse(self) -> Transform {
        Transform::of(library::inverse(self.setting()))
    }

    /// Bits 7:4 of a source control word.
    fn setting(self) -> u32 {
        u32::from(self.flip_v) << 7 | u32::from(self.flip_h) << 6 | (self.turn as u32) << 4
    }

    fn of(setting: u32) -> Transform {
        let turns = [Turn::None, Turn::Quarter, Turn::Half, Turn::ThreeQuarters];
        Transform { flip_h: setting >> 6 & 1 == 1, flip_v: setting >> 7 & 1 == 1, turn: turns[(setting >> 4 & 3) as usize] }
    }
}

/// Where the source's colours come from.
#[derive(Clone, Copy, Debug, Default, PartialEq, Eq, Hash)]
pub enum SourceMode {
    /// From its surface in memory.
    #[default]
    Buffer,
    /// The task's one colour.
    Colour,
    /// The task's colour, changing along x by [`Steps`].
    GradientX,
    /// The same along y.
    GradientY,
}

/// What each channel changes by from one place to the next, as register words: 25 bits in two's complement, in parts of 65,536.
///
/// ```
/// use wenditsal::Steps;
/// assert_eq!(Steps::step(-1, 65536), 0x01FF_FFFF);
/// assert_eq!(Steps::step(255, 4), 0x003F_C000);
/// ```
#[derive(Clone, Copy, Debug, Default, PartialEq, Eq, Hash)]
pub struct Steps {
    /// Of A.
    pub alpha: u32,
    /// Of R.
    pub red: u32,
    /// Of G.
    pub green: u32,
    /// Of B.
    pub blue: u32,
}

impl Steps {
    /// The step that takes a channel by `levels` in so many places, rounded towards zero to parts of 65,536. The change a
    /// place must be from -256 to under 256; else the word is another step.
    ///
    /// # Panics
    /// If `places` is 0.
    pub const fn step(levels: i32, places: u32) -> u32 {
        (levels as i64 * 65536 / places as i64) as u32 & 0x01FF_FFFF
    }
}

/// What is drawn.
#[derive(Clone, Copy, Debug, Default, PartialEq, Eq, Hash)]
pub struct Source {
    /// Its pixels in buffer mode; in the other modes only its sides count.
    pub surface: Surface,
    /// Used while blending.
    pub alpha: Alpha,
    /// Flips and turn.
    pub transform: Transform,
    /// Pixels, one colour, or one that changes.
    pub mode: SourceMode,
    /// A task whose source is disabled is faulty.
    pub enable: bool,
}

/// What is drawn upon, while blending.
#[derive(Clone, Copy, Debug, Default, PartialEq, Eq, Hash)]
pub struct Destination {
    /// Its pixels.
    pub surface: Surface,
    /// Used while blending.
    pub alpha: Alpha,
    /// A task that blends upon a disabled destination is faulty.
    pub enable: bool,
}

/// What a channel is multiplied by in a blend, of 255.
#[derive(Clone, Copy, Debug, PartialEq, Eq, Hash)]
pub enum Factor {
    /// 0.
    Zero,
    /// 255.
    One,
    /// The source's alpha.
    SourceAlpha,
    /// 255 less the source's alpha.
    InverseSourceAlpha,
    /// The destination's alpha.
    DestinationAlpha,
    /// 255 less the destination's alpha.
    InverseDestinationAlpha,
}

/// The factors by the names that they have together.
#[derive(Clone, Copy, Debug, PartialEq, Eq, Hash)]
#[allow(missing_docs)]
pub enum Rule {
    None,
    Clear,
    Src,
    Dst,
    SrcOver,
    DstOver,
    SrcIn,
    DstIn,
    SrcOut,
    DstOut,
    SrcAtop,
    DstAtop,
    Xor,
    Add,
}

impl Rule {
    /// The factors of source and destination.
    ///
    /// ```
    /// use wenditsal::{Factor, Rule};
    /// assert_eq!(Rule::SrcOver.factors(), (Factor::One, Factor::InverseSourceAlpha));
    /// ```
    pub const fn factors(self) -> (Factor, Factor) {
        use Factor::{DestinationAlpha, InverseDestinationAlpha, InverseSourceAlpha, One, SourceAlpha, Zero};
        match self {
            Rule::None => (SourceAlpha, InverseSourceAlpha),
            Rule::Clear => (Zero, Zero),
            Rule::Src => (One, Zero),
            Rule::Dst => (Zero, One),
            Rule::SrcOver => (One, InverseSourceAlpha),
            Rule::DstOver => (InverseDestinationAlpha, One),
            Rule::SrcIn => (DestinationAlpha, Zero),
            Rule::DstIn => (Zero, SourceAlpha),
            Rule::SrcOut => (InverseDestinationAlpha, Zero),
            Rule::DstOut => (Zero, InverseSourceAlpha),
            Rule::SrcAtop => (DestinationAlpha, InverseSourceAlpha),
            Rule::DstAtop => (InverseDestinationAlpha, SourceAlpha),
            Rule::Xor => (InverseDestinationAlpha, InverseSourceAlpha),
            Rule::Add => (One, One),
        }
    }
}

/// How source and destination are blended.
#[derive(Clone, Copy, Debug, PartialEq, Eq, Hash)]
pub struct Blending {
    /// The source's factor.
    pub source: Factor,
    /// The destination's factor.
    pub destination: Factor,
    /// Off, the source's pixels are stored as they are.
    pub on: bool,
    /// The source's colours were multiplied by their alphas, and are divided by them before they are blended.
    pub premultiplied: bool,
}

impl Default for Blending {
    /// Off, as at reset by [`ResetRule::Unblended`].
    fn default() -> Self {
        ResetRule::Unblended.into()
    }
}

impl From<ResetRule> for Blending {
    /// As at reset: the factors of [`Rule::None`], off, or [`Rule::SrcOver`], on.
    fn from(rule: ResetRule) -> Self {
        let (source, destination) = Rule::None.factors();
        match rule {
            ResetRule::Unblended => Blending { source, destination, on: false, premultiplied: false },
            ResetRule::SrcOver => Rule::SrcOver.into(),
        }
    }
}

impl From<Rule> for Blending {
    fn from(rule: Rule) -> Self {
        let (source, destination) = rule.factors();
        Blending { source, destination, on: true, premultiplied: false }
    }
}

/// A task: one rectangle drawn. Its default is every field at reset by [`ResetRule::Unblended`]. It writes every register but the
/// steps ([`Task::encode_shaded`] writes these too), so the engine's own reset rule does not matter to it.
#[derive(Clone, Copy, Debug, Default, PartialEq, Eq, Hash)]
pub struct Task {
    /// What is drawn.
    pub source: Source,
    /// What is drawn upon, while blending.
    pub destination: Destination,
    /// Where it is drawn.
    pub output: Surface,
    /// The colour of colour mode, and the one that a shaded source starts with: A, R, G, B from the highest byte down.
    pub colour: u32,
    /// How it is blended.
    pub blending: Blending,
}

impl Task {
    /// A rectangle of one colour.
    ///
    /// ```
    /// use wenditsal::{Format, Refusal, Surface, Task};
    /// let page = Surface { width: 2, height: 1, stride: 8, address: 16384, format: Format::Argb8888 };
    /// let bytes = Task::fill(0x80FF_0000, page).encode()?;
    /// assert_eq!(bytes[..8], [0x14, 0, 0x10, 0, 0x05, 0, 0, 0]);
    /// # Ok::<(), Refusal>(())
    /// ```
    pub fn fill(colour: u32, output: Surface) -> Task {
        let surface = Surface { width: output.width, height: output.height, ..Surface::default() };
        let source = Source { surface, mode: SourceMode::Colour, enable: true, ..Source::default() };
        Task { source, output, colour, ..Task::default() }
    }

    /// A rectangle of a colour that changes along x, from its left side on. [`Task::encode_shaded`] takes the steps.
    ///
    /// ```
    /// use wenditsal::{Engine, Refusal, ResetRule, Setup, Steps, Surface, Task};
    ///
    /// let mut engine = Engine::new(Setup { ring: 128, memory: 64, common: 0, reset: ResetRule::SrcOver })?;
    /// let client = engine.open(0, 64)?;
    /// let margin = Surface { width: 3, height: 1, stride: 16, ..Surface::default() };
    /// let steps = Steps { blue: Steps::step(-1, 65536), ..Steps::default() };
    /// engine.submit(client, &Task::shaded_along_x(0xFF00_000A, margin).encode_shaded(steps)?)?;
    /// assert_eq!(engine.run()?.fault, None);
    /// assert_eq!(engine.memory()[..12], [10, 0, 0, 255, 9, 0, 0, 255, 9, 0, 0, 255]);
    /// # Ok::<(), Refusal>(())
    /// ```
    pub fn shaded_along_x(colour: u32, output: Surface) -> Task {
        let mut task = Task::fill(colour, output);
        task.source.mode = SourceMode::GradientX;
        task
    }

    /// The same along y, from its first row on.
    pub fn shaded_along_y(colour: u32, output: Surface) -> Task {
        let mut task = Task::fill(colour, output);
        task.source.mode = SourceMode::GradientY;
        task
    }

    /// A surface copied to another, which may be of another format.
    ///
    /// ```
    /// use wenditsal::{Engine, Format, Refusal, ResetRule, Setup, Surface, Task};
    ///
    /// let mut engine = Engine::new(Setup { ring: 128, memory: 64, common: 8, reset: ResetRule::SrcOver })?;
    /// let client = engine.open(8, 56)?;
    /// engine.memory_mut()[..4].copy_from_slice(&[1, 2, 3, 4]);
    ///
    /// let from = Surface { width: 1, height: 1, stride: 8, address: 0, format: Format::Argb8888 };
    /// let to = Surface { address: 16, format: Format::Rgb888, ..from };
    /// engine.submit(client, &Task::copy(from, to).encode()?)?;
    /// assert_eq!(engine.run()?.fault, None);
    /// assert_eq!(engine.memory()[16..20], [1, 2, 3, 0]);
    /// # Ok::<(), Refusal>(())
    /// ```
    pub fn copy(from: Surface, to: Surface) -> Task {
        let source = Source { surface: from, enable: true, ..Source::default() };
        Task { source, output: to, ..Task::default() }
    }

    /// This task, with its source flipped and turned.
    ///
    /// ```
    /// use wenditsal::{Engine, Refusal, ResetRule, Setup, Surface, Task, Transform, Turn};
    ///
    /// let mut engine = Engine::new(Setup { ring: 128, memory: 64, common: 8, reset: ResetRule::SrcOver })?;
    /// let client = engine.open(8, 56)?;
    /// engine.memory_mut()[..8].copy_from_slice(&[1, 1, 1, 1, 2, 2, 2, 2]);
    ///
    /// // A row of two pixels, turned to a column; the flip comes first.
    /// let from = Surface { width: 2, height: 1, stride: 8, ..Surface::default() };
    /// let to = Surface { width: 1, height: 2, stride: 8, address: 16, ..Surface::default() };
    /// let turned = Transform { flip_h: true, flip_v: false, turn: Turn::Quarter };
    /// engine.submit(client, &Task::copy(from, to).transformed(turned).encode()?)?;
    /// assert_eq!(engine.run()?.fault, None);
    /// assert_eq!(engine.memory()[16..28], [2, 2, 2, 2, 0, 0, 0, 0, 1, 1, 1, 1]);
    /// # Ok::<(), Refusal>(())
    /// ```
    pub fn transformed(mut self, transform: Transform) -> Task {
        self.source.transform = transform;
        self
    }

    /// This task, blended upon its own output by a rule.
    ///
    /// ```
    /// use wenditsal::{Engine, Refusal, ResetRule, Rule, Setup, Surface, Task};
    ///
    /// let mut engine = Engine::new(Setup { ring: 128, memory: 64, common: 0, reset: ResetRule::SrcOver })?;
    /// let client = engine.open(0, 64)?;
    /// engine.memory_mut()[..4].copy_from_slice(&[100, 100, 100, 255]);
    ///
    /// let page = Surface { width: 1, height: 1, stride: 8, ..Surface::default() };
    /// engine.submit(client, &Task::fill(0x8080_8080, page).blended(Rule::SrcOver).encode()?)?;
    /// assert_eq!(engine.run()?.fault, None);
    /// assert_eq!(engine.memory()[..4], [178, 178, 178, 255]);
    /// # Ok::<(), Refusal>(())
    /// ```
    pub fn blended(mut self, rule: Rule) -> Task {
        self.destination.surface = self.output;
        self.destination.enable = true;
        self.blending = rule.into();
        self
    }

    /// This task, with a source whose colours were multiplied by their alphas. It counts where the task is blended.
    ///
    /// ```
    /// use wenditsal::{Engine, Refusal, ResetRule, Rule, Setup, Surface, Task};
    ///
    /// let mut engine = Engine::new(Setup { ring: 128, memory: 64, common: 0, reset: ResetRule::SrcOver })?;
    /// let client = engine.open(0, 64)?;
    ///
    /// let page = Surface { width: 1, height: 1, stride: 8, ..Surface::default() };
    /// engine.submit(client, &Task::fill(0x8040_4040, page).blended(Rule::Src).premultiplied().encode()?)?;
    /// assert_eq!(engine.run()?.fault, None);
    /// assert_eq!(engine.memory()[..4], [128, 128, 128, 128]);
    /// # Ok::<(), Refusal>(())
    /// ```
    pub fn premultiplied(mut self) -> Task {
        self.blending.premultiplied = true;
        self
    }

    /// The 80 bytes of the batch of this one task. Such batches put one after the other are a batch of several tasks.
    ///
    /// ```
    /// use wenditsal::{Refusal, Surface, Task};
    /// let wide = Surface { width: 8192, height: 1, stride: 8, ..Surface::default() };
    /// assert_eq!(Task::fill(0, wide).encode(), Err(Refusal::ForbiddenField));
    /// ```
    ///
    /// # Errors
    /// [`Refusal::ForbiddenField`]: a side over 8,191, or a stride over 65,535. What the fields mean together is judged when the
    /// batch is run.
    pub fn encode(&self) -> Result<[u8; TASK_SIZE], Refusal> {
        let mut bytes = [0; TASK_SIZE];
        Refusal::check(library::encode(self.fields(), &mut bytes))?;
        Ok(bytes)
    }

    /// The 100 bytes of the batch of this one task in the second form, with steps. [`Task::encode`] writes none: the task then has those of
    /// the task before it in its batch, and as the first of its batch 0.
    ///
    /// # Errors
    /// [`Refusal::ForbiddenField`]: as by [`Task::encode`], or a step of more than 25 bits.
    pub fn encode_shaded(&self, steps: Steps) -> Result<[u8; SHADED_TASK_SIZE], Refusal> {
        let mut bytes = [0; SHADED_TASK_SIZE];
        let Steps { alpha, red, green, blue } = steps;
        Refusal::check(library::encode_shaded(self.fields(), [alpha, red, green, blue], &mut bytes))?;
        Ok(bytes)
    }

    fn fields(&self) -> Fields {
        let Task { source, destination, output, colour, blending } = *self;
        Fields {
            source: SourceFields {
                surface: source.surface.fields(),
                alpha_mode: source.alpha.mode as u32,
                global_alpha: source.alpha.global.into(),
                flip_h: source.transform.flip_h.into(),
                flip_v: source.transform.flip_v.into(),
                quarter_turns: source.transform.turn as u32,
                mode: source.mode as u32,
                enable: source.enable.into(),
            },
            destination: DestinationFields {
                surface: destination.surface.fields(),
                alpha_mode: destination.alpha.mode as u32,
                global_alpha: destination.alpha.global.into(),
                enable: destination.enable.into(),
            },
            output: output.fields(),
            colour,
            source_factor: blending.source as u32,
            destination_factor: blending.destination as u32,
            blend: blending.on.into(),
            premultiplied: blending.premultiplied.into(),
        }
    }
}

/// The 80 bytes of the batch of one task that lays a tint, red, green and blue, over a rectangle: the less sure the score, from
/// 0 to 1, the stronger.
///
/// ```
/// use wenditsal::{encode_tint, Engine, Refusal, ResetRule, Setup, Surface};
///
/// let mut engine = Engine::new(Setup { ring: 128, memory: 64, common: 0, reset: ResetRule::SrcOver })?;
/// let client = engine.open(0, 64)?;
/// engine.memory_mut()[..4].copy_from_slice(&[255, 255, 255, 255]);
///
/// // A score of 0.5 covers with 128 of 255.
/// let word = Surface { width: 1, height: 1, stride: 8, ..Surface::default() };
/// engine.submit(client, &encode_tint(0.5, [255, 0, 0], word)?)?;
/// assert_eq!(engine.run()?.fault, None);
/// assert_eq!(engine.memory()[..4], [127, 127, 255, 255]);
///
/// assert_eq!(encode_tint(f32::NAN, [255, 0, 0], word), Err(Refusal::BadScore));
/// # Ok::<(), Refusal>(())
/// ```
///
/// # Errors
/// [`Refusal::BadScore`]: the score is NaN or outside 0 to 1. [`Refusal::ForbiddenField`]: as by [`Task::encode`].
pub fn encode_tint(score: f32, tint: [u8; 3], output: Surface) -> Result<[u8; TASK_SIZE], Refusal> {
    let mut bytes = [0; TASK_SIZE];
    Refusal::check(library::encode_tint(score, tint, output.fields(), &mut bytes))?;
    Ok(bytes)
}

impl Surface {
    fn fields(self) -> SurfaceFields {
        let Surface { width, height, stride, address, format } = self;
        SurfaceFields { width, height, stride, address, format: format.code() }
    }
}
