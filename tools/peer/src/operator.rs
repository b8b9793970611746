//! Reading what a profile's own domain is sent (000, 4.1.2.1): from any bytes to the policy, or to the first of the
//! rows 67 00, 6E 00, 6D 00, 6A 86, 67 00, 6A 80 that holds. STORE DATA is the one command known here: the INSTALL that
//! goes before it has named the speaker, and is done when the bytes arrive.

use crate::card::policy_is_right;
use crate::read::{data_field, header, only_dgi, only_element, stores_all, STORE_DATA};
use crate::status::*;

/// POL1 (000, Table 69). The root domain knows no such DGI, and this reader none of the root domain's.
const POLICY_RULES: [u8; 2] = [0x3A, 0x06];

pub fn read_policy(bytes: &[u8]) -> Result<u8, u16> {
    let ([instruction, p1, p2], body) = header(bytes)?;
    if instruction != STORE_DATA {
        return Err(WRONG_INSTRUCTION);
    }
    if !stores_all(p1, p2) {
        return Err(WRONG_PARAMETERS);
    }
    let field = data_field(body).ok_or(WRONG_LENGTH)?;
    policy(field).ok_or(WRONG_DATA)
}

fn policy(field: &[u8]) -> Option<u8> {
    let (POLICY_RULES, body) = only_dgi(field)? else { return None };
    let [policy] = *only_element(&[0x81], body)? else { return None };
    policy_is_right(policy).then_some(policy)
}
