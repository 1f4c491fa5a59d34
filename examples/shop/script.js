$(function () {
  $('.products').on('click', '.product', function () {
    $(this).addClass('chosen');
    $('.cart').append('<b class="count">1</b>');
  });
  $('.order').submit(function () {
    if ($('.name').val() === '') {
      $(this).append('<p class="error"><b>Your name, please</b></p>');
      $('.error').parents('.order').addClass('invalid');
      return false;
    }
  });
});
