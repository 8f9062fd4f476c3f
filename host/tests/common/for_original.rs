//! Settings for the original, whose types are its own.

use fallowcart::{HighpassOrder, PreprocessingConfig, VadConfig};
use speech_prep::{AudioTimestamp, preprocessing};

pub trait ForOriginal {
    type Original;

    /// The same settings for the original.
    fn for_original(&self) -> Self::Original;
}

impl ForOriginal for VadConfig {
    type Original = speech_prep::VadConfig;

    fn for_original(&self) -> speech_prep::VadConfig {
        speech_prep::VadConfig {
            sample_rate: self.sample_rate,
            frame_duration: self.frame_duration,
            frame_overlap: self.frame_overlap,
            pre_emphasis: self.pre_emphasis,
            activation_ratio: self.activation_ratio,
            release_ratio: self.release_ratio,
            min_speech_energy: self.min_speech_energy,
            noise_smoothing: self.noise_smoothing,
            energy_floor: self.energy_floor,
            hangover_frames: self.hangover_frames,
            speech_padding: self.speech_padding,
            min_speech_frames: self.min_speech_frames,
            stream_start_time: AudioTimestamp::from_nanos(self.stream_start_time),
        }
    }
}

impl ForOriginal for PreprocessingConfig {
    type Original = preprocessing::PreprocessingConfig;

    fn for_original(&self) -> preprocessing::PreprocessingConfig {
        preprocessing::PreprocessingConfig {
            highpass_cutoff_hz: self.highpass_cutoff_hz,
            sample_rate_hz: self.sample_rate_hz,
            dc_bias_alpha: self.dc_bias_alpha,
            enable_dc_removal: self.enable_dc_removal,
            enable_highpass: self.enable_highpass,
            highpass_order: match self.highpass_order {
                HighpassOrder::SecondOrder => preprocessing::HighpassOrder::SecondOrder,
                HighpassOrder::FourthOrder => preprocessing::HighpassOrder::FourthOrder,
            },
        }
    }
}
