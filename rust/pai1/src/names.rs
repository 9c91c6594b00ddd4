use std::fmt;

/// What a content animates.
#[derive(Clone, Copy, Debug, PartialEq, Eq, Hash)]
pub enum AnimType {
    /// A pane (0).
    Pane,
    /// A material (1).
    Material,
    /// Data of the user's (2).
    User,
    /// A pane, extended (3).
    PaneExt,
    /// A state machine (4).
    StateMachine,
}

impl AnimType {
    /// The type of a record's word. Any word above 4 is 0, as the reader has it.
    pub(crate) fn of(word: u32) -> AnimType {
        match word {
            1 => AnimType::Material,
            2 => AnimType::User,
            3 => AnimType::PaneExt,
            4 => AnimType::StateMachine,
            _ => AnimType::Pane,
        }
    }
}

impl fmt::Display for AnimType {
    fn fmt(&self, f: &mut fmt::Formatter<'_>) -> fmt::Result {
        write!(f, "{self:?}")
    }
}

/// Says once, for each kind of animation, its name, its letters and what its targets are called, in the order of their
/// numbers.
macro_rules! kinds {
    ($($(#[$doc:meta])* $name:ident $letters:literal [$($target:ident)*])*) => {
        /// What an info animates, by its letters.
        #[derive(Clone, Copy, Debug, PartialEq, Eq, Hash)]
        pub enum AnimInfoType {
            /// Letters that are none of these: word 0 in a record.
            Invalid,
            /// `FLEU`: extended user data, which have no targets.
            ExtendedUserDataAnim,
            $($(#[$doc])* $name,)*
        }

        impl AnimInfoType {
            /// Every kind.
            pub const ALL: &[AnimInfoType] =
                &[AnimInfoType::Invalid, AnimInfoType::ExtendedUserDataAnim, $(AnimInfoType::$name),*];

            /// The four letters. An invalid info is written with four zeros.
            pub fn letters(self) -> [u8; 4] {
                match self {
                    AnimInfoType::Invalid => [0; 4],
                    AnimInfoType::ExtendedUserDataAnim => *b"FLEU",
                    $(AnimInfoType::$name => *$letters,)*
                }
            }

            /// What the targets are called, in the order of their numbers.
            pub fn target_names(self) -> &'static [&'static str] {
                match self {
                    AnimInfoType::Invalid | AnimInfoType::ExtendedUserDataAnim => &[],
                    $(AnimInfoType::$name => &[$(stringify!($target)),*],)*
                }
            }
        }
    };
}

kinds! {
    /// `FLCC`, with 16 targets.
    PerCharacterTransformCurveAnim b"FLCC" [
        TranslateX TranslateY TranslateZ RotateX RotateY RotateZ LeftTopRed LeftTopGreen LeftTopBlue LeftTopAlpha
        LeftBottomRed LeftBottomGreen LeftBottomBlue LeftBottomAlpha ScaleX ScaleY
    ]
    /// `FLCT`, with 2 targets.
    PerCharacterTransformAnim b"FLCT" [EvalTimeOffset EvalTimeWidth]
    /// `FLPA`, with 10 targets.
    PaneSrtAnim b"FLPA" [TranslateX TranslateY TranslateZ RotateX RotateY RotateZ ScaleX ScaleY SizeX SizeY]
    /// `FLVC`, with 17 targets.
    VertexColorAnim b"FLVC" [
        LeftTopRed LeftTopGreen LeftTopBlue LeftTopAlpha RightTopRed RightTopGreen RightTopBlue RightTopAlpha
        LeftBottomRed LeftBottomGreen LeftBottomBlue LeftBottomAlpha RightBottomRed RightBottomGreen RightBottomBlue
        RightBottomAlpha PaneAlpha
    ]
    /// `FLVI`, with 1 target.
    VisibilityAnim b"FLVI" [Visibility]
    /// `FLDS`, with 19 targets.
    DropShadowAnim b"FLDS" [
        StrokeSize StrokeColorRed StrokeColorGreen StrokeColorBlue StrokeColorAlpha OuterGlowColorRed
        OuterGlowColorGreen OuterGlowColorBlue OuterGlowColorAlpha OuterGlowSpread OuterGlowSize DropShadowColorRed
        DropShadowColorGreen DropShadowColorBlue DropShadowColorAlpha DropShadowAngle DropShadowDistance
        DropShadowSpread DropShadowSize
    ]
    /// `FLMT`, with 5 targets.
    MaskTextureAnim b"FLMT" [TranslateX TranslateY Rotate ScaleX ScaleY]
    /// `FLPS`, with 52 targets.
    ProceduralShapeAnim b"FLPS" [
        ExpLeftTop ExpRightTop ExpLeftBottom ExpRightBottom RadiusLeftTop RadiusRightTop RadiusLeftBottom
        RadiusRightBottom InnerStrokeSize InnerStrokeColorRed InnerStrokeColorGreen InnerStrokeColorBlue
        InnerStrokeColorAlpha InnerShadowColorRed InnerShadowColorGreen InnerShadowColorBlue InnerShadowColorAlpha
        InnerShadowAngle InnerShadowDistance InnerShadowSize ColorOverlayColorRed ColorOverlayColorGreen
        ColorOverlayColorBlue ColorOverlayColorAlpha GradationOverlayControl0 GradationOverlayControl1
        GradationOverlayControl2 GradationOverlayControl3 GradationOverlayColor0Red GradationOverlayColor0Green
        GradationOverlayColor0Blue GradationOverlayColor0Alpha GradationOverlayColor1Red GradationOverlayColor1Green
        GradationOverlayColor1Blue GradationOverlayColor1Alpha GradationOverlayColor2Red GradationOverlayColor2Green
        GradationOverlayColor2Blue GradationOverlayColor2Alpha GradationOverlayColor3Red GradationOverlayColor3Green
        GradationOverlayColor3Blue GradationOverlayColor3Alpha GradationOverlayAngle OuterShadowColorRed
        OuterShadowColorGreen OuterShadowColorBlue OuterShadowColorAlpha OuterShadowAngle OuterShadowDistance
        OuterShadowSize
    ]
    /// `FLWN`, with 4 targets.
    WindowAnim b"FLWN" [Top Bottom Left Right]
    /// `FSMA`, with 1 target.
    StateMachineAnim b"FSMA" [PostToChild]
    /// `FLAC`, with 1 target.
    AlphaCompareAnim b"FLAC" [CompareReference]
    /// `FLFS`, with 7 targets.
    FontShadowAnim b"FLFS" [BlackRed BlackGreen BlackBlue WhiteRed WhiteGreen WhiteBlue WhiteAlpha]
    /// `FLIM`, with 3 targets.
    IndirectSrtAnim b"FLIM" [Rotate ScaleU ScaleV]
    /// `FLMC`, with 28 targets.
    MaterialColorAnim b"FLMC" [
        BufferRed BufferGreen BufferBlue BufferAlpha Constant0Red Constant0Green Constant0Blue Constant0Alpha
        Color0Red Color0Green Color0Blue Color0Alpha Color1Red Color1Green Color1Blue Color1Alpha Color2Red
        Color2Green Color2Blue Color2Alpha Color3Red Color3Green Color3Blue Color3Alpha Color4Red Color4Green
        Color4Blue Color4Alpha
    ]
    /// `FLTS`, with 5 targets.
    TextureSrtAnim b"FLTS" [TranslateU TranslateV Rotate ScaleU ScaleV]
    /// `FLTP`, with 1 target.
    TexturePatternAnim b"FLTP" [Image]
    /// `FTBR`, with 7 targets.
    BrickRepeatAnim b"FTBR" [CountX CountY OffsetX OffsetY LocalScaleX LocalScaleY LocalRotate]
    /// `FVGA`, with 1 target.
    VectorGraphicsAnim b"FVGA" [Time]
}

impl AnimInfoType {
    /// The kind of these letters.
    pub fn of_letters(letters: [u8; 4]) -> AnimInfoType {
        *AnimInfoType::ALL.iter().find(|kind| kind.letters() == letters).unwrap_or(&AnimInfoType::Invalid)
    }
}

impl fmt::Display for AnimInfoType {
    fn fmt(&self, f: &mut fmt::Formatter<'_>) -> fmt::Result {
        write!(f, "{self:?}")
    }
}

/// What a target animates: a number, whose meaning its info's letters decide.
#[derive(Clone, Copy, Debug, PartialEq, Eq, Hash)]
pub struct TargetIndex {
    /// The kind of the target's info.
    pub anim_type: AnimInfoType,
    /// The number. Below the number of names that the kind has, or 255 in an invalid info.
    pub number: u8,
}

impl TargetIndex {
    /// What the number means. `Invalid` where the kind has no such number.
    ///
    /// ```
    /// use pai1::{AnimInfoType, TargetIndex};
    ///
    /// let target = TargetIndex { anim_type: AnimInfoType::PaneSrtAnim, number: 1 };
    /// assert_eq!(target.name(), "TranslateY");
    /// ```
    pub fn name(&self) -> &'static str {
        self.anim_type.target_names().get(self.number as usize).unwrap_or(&"Invalid")
    }
}

impl fmt::Display for TargetIndex {
    fn fmt(&self, f: &mut fmt::Formatter<'_>) -> fmt::Result {
        f.write_str(self.name())
    }
}
