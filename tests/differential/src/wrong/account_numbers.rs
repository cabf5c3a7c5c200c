//! Wrong account numbers: which there are, how they are read, what they share, which a close posts to,
//! and where they are shown.

use crate::wrong::refusals::{moved, CheckMoved, Order};
use dayformat::tag;
use reference::call::{Account, Call, Trade};
use reference::history::History;
use reference::play::Played;
use reference::refusal::{Check, ACCOUNT, CHECKING_ORDER, FIELD};
use reference::rules::{CallRules, FileRules, RefusalRules, RightLedger};
use reference::terms::ACCOUNTS;
use reference::Lists;
use std::ops::Range;

/// The accounts of one byte.
const ONE_BYTE_ACCOUNTS: usize = 256;

pub fn is_of_one_byte(account: Account) -> bool {
    usize::from(account) < ONE_BYTE_ACCOUNTS
}

/// It has so many accounts.
pub struct Accounts(usize);

impl RefusalRules for Accounts {
    fn is_account(&self, account: Account) -> bool {
        usize::from(account) < self.0
    }
}

pub static ACCOUNT_1023_REFUSED: Accounts = Accounts(ACCOUNTS - 1);
pub static ACCOUNT_1024_ACCEPTED: Accounts = Accounts(ACCOUNTS + 1);
pub static ACCOUNTS_ABOVE_255_REFUSED: Accounts = Accounts(ONE_BYTE_ACCOUNTS);
pub static ANY_ACCOUNT_ACCEPTED: Accounts = Accounts(1 << 16);

/// It looks at one of a trade's accounts alone.
pub struct AccountChecked(fn(Trade) -> Account);

impl RefusalRules for AccountChecked {
    fn refuses_account(&self, trade: Trade) -> bool {
        !self.is_account(self.0(trade))
    }
}

pub static ONLY_BUYER_CHECKED: AccountChecked = AccountChecked(|trade| trade.buyer);
pub static ONLY_SELLER_CHECKED: AccountChecked = AccountChecked(|trade| trade.seller);

pub static ACCOUNT_BEFORE_HALT: CheckMoved =
    CheckMoved(&moved(CHECKING_ORDER, Check::Account, Check::Halt));
pub static ACCOUNT_BEFORE_FIELD: CheckMoved =
    CheckMoved(&moved(CHECKING_ORDER, Check::Account, Check::Field));

const BUYER_VOLUME_FIRST: Order = moved(CHECKING_ORDER, Check::BuyerVolume, Check::Account);
const VOLUMES_FIRST: Order = moved(BUYER_VOLUME_FIRST, Check::SellerVolume, Check::Account);
pub static VOLUME_BEFORE_ACCOUNT: CheckMoved = CheckMoved(&VOLUMES_FIRST);

/// Where it refuses an account, it tests the position of the other one first.
pub struct PositionBeforeAccount;

impl RefusalRules for PositionBeforeAccount {
    fn checking_order(&self, call: Call) -> &'static [Check] {
        match call {
            Call::Trade(trade) if self.refuses_account(trade) => &[
                Check::Day,
                Check::Halt,
                Check::Field,
                Check::BuyerPosition,
                Check::SellerPosition,
                Check::Account,
            ],
            _ => RightLedger.checking_order(call),
        }
    }
}

/// The limits of accounts above 255 are one less.
pub struct LimitsAbove255 {
    volume: i128,
    position: i128,
}

pub static VOLUME_LIMIT_ABOVE_255: LimitsAbove255 = LimitsAbove255 {
    volume: 1_999_999,
    position: 1_200_000,
};
pub static POSITION_LIMIT_ABOVE_255: LimitsAbove255 = LimitsAbove255 {
    volume: 2_000_000,
    position: 1_199_999,
};

impl RefusalRules for LimitsAbove255 {
    fn volume_limit(&self, account: Account) -> i128 {
        match is_of_one_byte(account) {
            true => RightLedger.volume_limit(account),
            false => self.volume,
        }
    }

    fn position_limit(&self, account: Account) -> i128 {
        match is_of_one_byte(account) {
            true => RightLedger.position_limit(account),
            false => self.position,
        }
    }
}

pub struct RefusedAccountGiven5;

impl RefusalRules for RefusedAccountGiven5 {
    fn number(&self, check: Check) -> u8 {
        match check {
            Check::Account => FIELD,
            _ => RightLedger.number(check),
        }
    }
}

/// The trade moves the other account.
pub struct RefusedAccountTakesEffect;

impl RefusalRules for RefusedAccountTakesEffect {
    fn changes_book(&self, refusal: Option<u8>) -> bool {
        matches!(refusal, None | Some(ACCOUNT))
    }
}

/// An account by its number in the record, high byte first.
pub struct AccountReadAs(fn(Account) -> Account);

impl FileRules for AccountReadAs {
    fn account(&self, bytes: &[u8]) -> Account {
        self.0(RightLedger.account(bytes))
    }
}

pub static LOW_BYTE_READ: AccountReadAs = AccountReadAs(|account| account % 256);
pub static LOW_BYTE_BELOW_1024: AccountReadAs = AccountReadAs(|account| match account {
    0..=1_023 => account % 256,
    _ => account,
});
pub static ACCOUNT_MODULO_1024: AccountReadAs = AccountReadAs(|account| account % 1_024);

pub struct LowByteFirst;

impl FileRules for LowByteFirst {
    fn account(&self, bytes: &[u8]) -> Account {
        let high_first: Vec<u8> = bytes.iter().rev().copied().collect();
        RightLedger.account(&high_first)
    }
}

/// The accounts with one low byte have one v.
pub struct OneVolumeOfALowByte;

impl CallRules for OneVolumeOfALowByte {
    fn volume(&self, history: &History, account: Account) -> i128 {
        let alike = history
            .trades
            .keys()
            .filter(|other| *other % 256 == account % 256);
        alike.map(|other| RightLedger.volume(history, *other)).sum()
    }
}

/// The cash of the others stays.
pub struct ClosePosts256Accounts;

impl CallRules for ClosePosts256Accounts {
    fn posts_to(&self, account: Account) -> bool {
        is_of_one_byte(account)
    }
}

pub struct ClosePrints256Accounts;

impl FileRules for ClosePrints256Accounts {
    fn printed_accounts(&self) -> Range<Account> {
        0..ONE_BYTE_ACCOUNTS as Account
    }
}

/// The entries after the first 256 are 0.
pub struct Reports256Accounts;

impl FileRules for Reports256Accounts {
    fn lists(&self, played: &Played) -> Option<Lists> {
        let (mut positions, mut cash) = played.report();
        positions[ONE_BYTE_ACCOUNTS..].fill(0);
        cash[ONE_BYTE_ACCOUNTS..].fill(0);
        Some((positions, cash))
    }
}

/// A report needs lists of 256 still.
pub struct ListsOf256Needed;

impl FileRules for ListsOf256Needed {
    fn refuses_list(&self, length: usize) -> bool {
        length != ONE_BYTE_ACCOUNTS
    }
}

/// The records of this tag are unknown.
pub struct UnknownTag(pub u8);

impl FileRules for UnknownTag {
    fn body_length(&self, tag: u8) -> Option<usize> {
        match tag == self.0 {
            true => None,
            false => RightLedger.body_length(tag),
        }
    }
}

pub static TAG_1_UNKNOWN: UnknownTag = UnknownTag(tag::TRADE);
pub static TAG_10_UNKNOWN: UnknownTag = UnknownTag(tag::TWO_BYTE_TRADE);

/// Trades of both tags have the length and the accounts of this one.
pub struct TradesOfOneForm(u8);

impl TradesOfOneForm {
    fn form(&self, tag: u8) -> u8 {
        match tag {
            tag::TRADE | tag::TWO_BYTE_TRADE => self.0,
            _ => tag,
        }
    }
}

impl FileRules for TradesOfOneForm {
    fn body_length(&self, tag: u8) -> Option<usize> {
        RightLedger.body_length(self.form(tag))
    }

    fn account_bytes(&self, tag: u8) -> usize {
        RightLedger.account_bytes(self.form(tag))
    }
}

pub static TAG_10_OF_ONE_BYTE: TradesOfOneForm = TradesOfOneForm(tag::TRADE);
pub static TAG_1_OF_TWO_BYTES: TradesOfOneForm = TradesOfOneForm(tag::TWO_BYTE_TRADE);
