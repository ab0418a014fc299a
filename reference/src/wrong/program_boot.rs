//! Faults of the small program's cold boot: no output shows them.

use crate::boots::Inputs;
use crate::mailbox::{Program, BOOTED_WITH};

super::engines! {

ProgramManifestIsRuntime: "the program's manifest digest is 48 bytes 0x11"
[program: Program] {
    fn boots_with(&self) -> Inputs<'static> {
        Inputs { manifest: BOOTED_WITH.runtime, ..BOOTED_WITH }
    }
}

ProgramManifestIsSecret: "the program's manifest digest is 48 bytes 0x22"
[program: Program] {
    fn boots_with(&self) -> Inputs<'static> {
        Inputs { manifest: BOOTED_WITH.secret, ..BOOTED_WITH }
    }
}

ProgramSecretIsManifest: "the program's secret is 48 bytes 0x33"
[program: Program] {
    fn boots_with(&self) -> Inputs<'static> {
        Inputs { secret: BOOTED_WITH.manifest, ..BOOTED_WITH }
    }
}

}
