//! A call as the part of a line before ` => `.
use crate::Config;
use crate::bytes::{body_bytes, body_text, hex};
use crate::call::{CLASSES, Call, Class, Grant};
use crate::fields::Fields;

impl Call {
    /// `CALL CLASS INPUTS`.
    pub fn text(&self, class: Class) -> String {
        format!("{} {class} {}", self.name(), self.inputs())
    }

    /// Reads `CALL CLASS INPUTS`. What would not be written so is refused.
    pub fn parse(text: &str) -> Result<(Class, Self), String> {
        let mut fields = Fields::of(text);
        let (name, class) = (fields.next("CALL")?, class(&mut fields)?);
        let call = Self::with_inputs(name, &mut fields)?;
        fields.end()?;
        if call.text(class) != text {
            return Err("reads as another line than it is".into());
        }
        Ok((class, call))
    }

    fn inputs(&self) -> String {
        match self {
            Self::New { session, generation, config, now } => {
                format!("{} {generation} {} {now}", hex(session), config_text(config))
            }
            Self::Handle { source, opcode, context, body, now, key_valid, admission, random } => {
                let (source, context, body) = (hex(source), hex(context), body_text(body));
                let admission = admission.as_ref().map_or("-".to_owned(), Grant::text);
                format!("{source} {opcode} {context} {body} {now} {} {admission} {}", u8::from(*key_valid), hex(random))
            }
            Self::Acknowledge { generation, sequence, delivered } => {
                format!("{generation} {sequence} {}", u8::from(*delivered))
            }
            Self::Disconnect { peer } => hex(peer),
            Self::Revoke { reservation } => hex(reservation),
            Self::Expire { now } | Self::Observe { now } => now.to_string(),
            Self::Replace { expected, enabled } => format!("{expected} {}", u8::from(*enabled)),
            Self::Poke { sequence } => sequence.to_string(),
        }
    }

    fn with_inputs(name: &str, f: &mut Fields<'_>) -> Result<Self, String> {
        Ok(match name {
            "new" => Self::New {
                session: f.array("session")?,
                generation: f.number("generation")?,
                config: config(f)?,
                now: f.number("now")?,
            },
            "handle" => Self::Handle {
                source: f.bytes("source")?,
                opcode: f.number("opcode")?,
                context: f.array("context")?,
                body: body_bytes(f.next("BODY")?)?,
                now: f.number("now")?,
                key_valid: f.flag("key_valid")?,
                admission: admission(f.next("ADMISSION")?)?,
                random: f.bytes("random")?,
            },
            "acknowledge" => Self::Acknowledge {
                generation: f.number("generation")?,
                sequence: f.number("sequence")?,
                delivered: f.flag("delivered")?,
            },
            "disconnect" => Self::Disconnect { peer: f.bytes("peer")? },
            "revoke_reservation" => Self::Revoke { reservation: f.array("reservation")? },
            "expire" => Self::Expire { now: f.number("now")? },
            "observe_time" => Self::Observe { now: f.number("now")? },
            "replace_enabled" => Self::Replace { expected: f.number("expected")?, enabled: f.flag("enabled")? },
            "poke_sequence" => Self::Poke { sequence: f.number("sequence")? },
            other => return Err(format!("unknown call {other:?}")),
        })
    }
}

impl Grant {
    fn text(&self) -> String {
        let (endpoint, reservation) = (hex(&self.endpoint), hex(&self.reservation_id));
        let Self { expires_at, max_active_circuits, max_bytes_per_circuit, max_total_bytes, .. } = self;
        format!("{endpoint}:{reservation}:{expires_at}:{max_active_circuits}:{max_bytes_per_circuit}:{max_total_bytes}")
    }

    fn parse(text: &str) -> Result<Self, String> {
        let mut fields = Fields::split(text, ':');
        let grant = Self {
            endpoint: fields.bytes("endpoint")?,
            reservation_id: fields.array("reservation")?,
            expires_at: fields.number("expiry")?,
            max_active_circuits: fields.number("most_active")?,
            max_bytes_per_circuit: fields.number("bytes_per_circuit")?,
            max_total_bytes: fields.number("total")?,
        };
        fields.end()?;
        Ok(grant)
    }
}

fn admission(text: &str) -> Result<Option<Grant>, String> {
    if text == "-" { Ok(None) } else { Grant::parse(text).map(Some) }
}

fn class(fields: &mut Fields<'_>) -> Result<Class, String> {
    let text = fields.next("CLASS")?;
    CLASSES.into_iter().find(|class| text == class.to_string()).ok_or_else(|| format!("unknown class {text:?}"))
}

fn config_text(config: &Config) -> String {
    let fields = [
        config.maximum_pending as u64,
        config.maximum_circuits as u64,
        config.maximum_circuits_per_peer.into(),
        config.maximum_queue_bytes as u64,
        config.maximum_inflight_actions as u64,
        config.maximum_inflight_actions_per_circuit as u64,
        config.maximum_inflight_actions_per_peer as u64,
        config.maximum_bytes_per_circuit,
        config.accept_timeout_seconds,
    ];
    fields.map(|field| field.to_string()).join(" ")
}

fn config(fields: &mut Fields<'_>) -> Result<Config, String> {
    Ok(Config {
        maximum_pending: fields.number("maximum_pending")?,
        maximum_circuits: fields.number("maximum_circuits")?,
        maximum_circuits_per_peer: fields.number("maximum_circuits_per_peer")?,
        maximum_queue_bytes: fields.number("maximum_queue_bytes")?,
        maximum_inflight_actions: fields.number("maximum_inflight_actions")?,
        maximum_inflight_actions_per_circuit: fields.number("maximum_inflight_actions_per_circuit")?,
        maximum_inflight_actions_per_peer: fields.number("maximum_inflight_actions_per_peer")?,
        maximum_bytes_per_circuit: fields.number("maximum_bytes_per_circuit")?,
        accept_timeout_seconds: fields.number("accept_timeout_seconds")?,
    })
}
