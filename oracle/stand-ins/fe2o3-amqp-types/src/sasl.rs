//! SASL frames. SASL is outside of what is compared: these keep their fields as bytes.

use serde_amqp::raw::{Composite, Raw};

use crate::carried_whole;
use crate::primitives::Binary;

/// The result of a SASL negotiation.
#[derive(Debug, Clone, PartialEq, Eq)]
pub enum SaslCode {
    Ok,
    Auth,
    Sys,
    SysPerm,
    SysTemp,
}

macro_rules! kept {
    ($($name:ident $code:literal),*) => {
        $(
            #[derive(Debug, Clone, PartialEq, Eq, Default)]
            pub struct $name {
                pub fields: Vec<Raw>,
            }

            impl $name {
                fn to_raw(&self) -> Raw {
                    Composite { code: $code, fields: self.fields.clone() }.raw()
                }

                fn from_raw(raw: &Raw) -> Result<Self, serde_amqp::Error> {
                    Ok($name { fields: raw.composite()?.fields })
                }
            }
        )*
    };
}

kept!(SaslMechanisms 0x40, SaslInit 0x41, SaslChallenge 0x42, SaslResponse 0x43);

#[derive(Debug, Clone, PartialEq, Eq)]
pub struct SaslOutcome {
    pub code: SaslCode,
    pub additional_data: Option<Binary>,
}

impl SaslOutcome {
    fn to_raw(&self) -> Raw {
        let code = Raw(vec![0x50, self.code.clone() as u8]);
        let data = match &self.additional_data {
            Some(Binary(data)) => Raw([&[0xb0][..], &(data.len() as u32).to_be_bytes(), data].concat()),
            None => Raw::null(),
        };
        Composite { code: 0x44, fields: vec![code, data] }.raw()
    }

    fn from_raw(raw: &Raw) -> Result<Self, serde_amqp::Error> {
        let code = match raw.composite()?.field(0).0[..] {
            [0x50, 0] => SaslCode::Ok,
            [0x50, 1] => SaslCode::Auth,
            [0x50, 2] => SaslCode::Sys,
            [0x50, 3] => SaslCode::SysPerm,
            [0x50, 4] => SaslCode::SysTemp,
            _ => return Err(serde_amqp::Error::Malformed("no outcome".into())),
        };
        Ok(SaslOutcome { code, additional_data: None })
    }
}

carried_whole!(SaslMechanisms, SaslInit, SaslChallenge, SaslResponse, SaslOutcome);
